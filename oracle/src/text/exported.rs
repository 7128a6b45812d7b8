//! The two calls of the crate `text`, as it declares them: a lent slice goes as a pointer and a length. They are total, so
//! that calling them is safe.

use crate::told::Told;

use super::subject::TextSubject;

#[rustfmt::skip]
extern "C" {
    fn zkir_assemble(
        text: *const u8, text_length: usize, words: *mut u8, words_length: usize, labels: *mut u64, labels_length: usize,
    ) -> Told;
    fn zkir_print(words: *const u8, words_length: usize, text: *mut u8, text_length: usize) -> Told;
}

/// The archive of `text` that the build was given in ZKIR_EXPORTS.
pub struct ArchiveText;

impl TextSubject for ArchiveText {
    fn assemble(&self, text: &[u8], words: &mut [u8], labels: &mut [u64]) -> Told {
        let (w, l) = (words.as_mut_ptr(), labels.as_mut_ptr());
        // SAFETY: the three slices are lent whole.
        unsafe { zkir_assemble(text.as_ptr(), text.len(), w, words.len(), l, labels.len()) }
    }

    fn print(&self, words: &[u8], text: &mut [u8]) -> Told {
        // SAFETY: both slices are lent whole.
        unsafe { zkir_print(words.as_ptr(), words.len(), text.as_mut_ptr(), text.len()) }
    }
}
