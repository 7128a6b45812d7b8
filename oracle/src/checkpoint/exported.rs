//! The two calls of the crate `checkpoint`, as it declares them: a lent slice goes as a pointer and a length. They are total,
//! so that calling them is safe.

use crate::told::Told;

use super::subject::CheckpointSubject;

#[rustfmt::skip]
extern "C" {
    fn zkir_checkpoint_write(
        state: *const u8, state_length: usize, memory: *const u8, memory_length: usize, image: *mut u8, image_length: usize,
    ) -> Told;
    fn zkir_checkpoint_read(
        image: *const u8, image_length: usize, state: *mut u8, state_length: usize, memory: *mut u8, memory_length: usize,
    ) -> Told;
}

/// The archive of `checkpoint` that the build was given in ZKIR_EXPORTS.
pub struct ArchiveCheckpoint;

impl CheckpointSubject for ArchiveCheckpoint {
    fn write(&self, state: &[u8], memory: &[u8], image: &mut [u8]) -> Told {
        let (s, m, i) = (state.as_ptr(), memory.as_ptr(), image.as_mut_ptr());
        // SAFETY: the three slices are lent whole.
        unsafe { zkir_checkpoint_write(s, state.len(), m, memory.len(), i, image.len()) }
    }

    fn read(&self, image: &[u8], state: &mut [u8], memory: &mut [u8]) -> Told {
        let (i, s, m) = (image.as_ptr(), state.as_mut_ptr(), memory.as_mut_ptr());
        // SAFETY: the three slices are lent whole.
        unsafe { zkir_checkpoint_read(i, image.len(), s, state.len(), m, memory.len()) }
    }
}
