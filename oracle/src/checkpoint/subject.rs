use crate::told::Told;

use super::{read, write};

/// The two calls that are compared.
pub trait CheckpointSubject: Sync {
    fn write(&self, state: &[u8], memory: &[u8], image: &mut [u8]) -> Told;
    fn read(&self, image: &[u8], state: &mut [u8], memory: &mut [u8]) -> Told;
}

/// The oracle as its own subject.
pub struct OracleCheckpoint;

impl CheckpointSubject for OracleCheckpoint {
    fn write(&self, state: &[u8], memory: &[u8], image: &mut [u8]) -> Told {
        write(state, memory, image)
    }

    fn read(&self, image: &[u8], state: &mut [u8], memory: &mut [u8]) -> Told {
        read(image, state, memory)
    }
}

/// The archive where it is linked, else the oracle itself.
pub fn subject() -> (&'static str, &'static dyn CheckpointSubject) {
    #[cfg(exports_checkpoint)]
    return ("the archive", &super::exported::ArchiveCheckpoint);
    #[cfg(not(exports_checkpoint))]
    return ("the oracle itself (no libcheckpoint.a in ZKIR_EXPORTS at build time)", &OracleCheckpoint);
}
