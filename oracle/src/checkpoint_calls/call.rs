use crate::checkpoint::{is_zero, PAGE_BYTES};
use crate::layout::STATE_BYTES;
use crate::told::Told;

use super::machine::Machine;
use super::parts::image_bytes;

#[derive(Clone, Copy, Debug, PartialEq, Eq)]
pub enum What {
    /// Of a state and a memory, into an image.
    Write,
    /// Of an image, into a state and a memory.
    Read,
}

/// A call with everything lent to it.
#[derive(Clone, Debug, PartialEq, Eq)]
pub struct Call {
    pub what: What,
    pub lent: Lent,
}

#[derive(Clone, Debug, PartialEq, Eq)]
pub struct Lent {
    pub state: Vec<u8>,
    pub memory: Vec<u8>,
    pub image: Vec<u8>,
}

/// What a call leaves: its answer and everything lent, also what it may only look at.
#[derive(Clone, Debug, PartialEq, Eq)]
pub struct Left {
    pub told: Told,
    pub lent: Lent,
}

impl Call {
    /// Lends exactly as much as the image takes. Nothing lent to be written is zero, so that what is left unwritten shows.
    pub fn write(machine: Machine) -> Self {
        let Machine { state, memory } = machine;
        let image = vec![0xa5; needed(&memory)];
        Self { what: What::Write, lent: Lent { state, memory, image } }
    }

    /// Lends a state and a memory of this length.
    pub fn read(image: Vec<u8>, memory_length: usize) -> Self {
        let (state, memory) = (vec![0xa5; STATE_BYTES], vec![0x5a; memory_length]);
        Self { what: What::Read, lent: Lent { state, memory, image } }
    }
}

/// The bytes of the image of a memory.
pub fn needed(memory: &[u8]) -> usize {
    image_bytes(held(memory))
}

/// The pages of a memory that hold something.
pub fn held(memory: &[u8]) -> usize {
    memory.chunks(PAGE_BYTES).filter(|page| !is_zero(page)).count()
}
