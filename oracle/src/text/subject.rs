use crate::told::Told;

use super::{assemble, print};

/// The two calls that are compared.
pub trait TextSubject: Sync {
    fn assemble(&self, text: &[u8], words: &mut [u8], labels: &mut [u64]) -> Told;
    fn print(&self, words: &[u8], text: &mut [u8]) -> Told;
}

/// The oracle as its own subject.
pub struct OracleText;

impl TextSubject for OracleText {
    fn assemble(&self, text: &[u8], words: &mut [u8], labels: &mut [u64]) -> Told {
        assemble(text, words, labels)
    }

    fn print(&self, words: &[u8], text: &mut [u8]) -> Told {
        print(words, text)
    }
}

/// The archive where it is linked, else the oracle itself.
pub fn subject() -> (&'static str, &'static dyn TextSubject) {
    #[cfg(exports_text)]
    return ("the archive", &super::exported::ArchiveText);
    #[cfg(not(exports_text))]
    return ("the oracle itself (no libtext.a in ZKIR_EXPORTS at build time)", &OracleText);
}
