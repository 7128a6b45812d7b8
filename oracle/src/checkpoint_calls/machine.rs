use crate::checkpoint::PAGE_BYTES;
use crate::generate;
use crate::layout::STATE_BYTES;
use crate::random::Random;

use super::parts::Parts;

/// What a checkpoint is made of.
#[derive(Clone, Debug, PartialEq, Eq)]
pub struct Machine {
    pub state: Vec<u8>,
    pub memory: Vec<u8>,
}

impl Machine {
    /// All zeros.
    pub fn fresh(pages: usize) -> Self {
        Self { state: vec![0; STATE_BYTES], memory: vec![0; PAGE_BYTES * pages] }
    }

    /// A fresh one, but for these bytes of its memory.
    pub fn holding(pages: usize, bytes: impl IntoIterator<Item = (usize, u8)>) -> Self {
        let mut machine = Self::fresh(pages);
        bytes.into_iter().for_each(|(at, byte)| machine.memory[at] = byte);
        machine
    }

    /// The state of some host call, now and then malformed, over pages most of which hold nothing or next to nothing.
    pub fn any(random: &mut Random) -> Self {
        let pages = match random.below(8) {
            0..=3 => random.below(4),
            4 => random.pick(&[15, 16]),
            _ => random.below(17),
        };
        let mut machine = Self::fresh(pages as usize);
        machine.state = generate::any(random).state;
        machine.memory.chunks_exact_mut(PAGE_BYTES).for_each(|page| fill(page, random));
        machine
    }

    pub fn pages(&self) -> usize {
        self.memory.len() / PAGE_BYTES
    }

    pub fn image(&self) -> Vec<u8> {
        Parts::of(self).image()
    }
}

fn fill(page: &mut [u8], random: &mut Random) {
    let place = random.below(PAGE_BYTES as u64) as usize;
    let byte = random.between(1, 255) as u8;
    match random.below(12) {
        0..=5 => {}
        6 => page[0] = byte,
        7 => page[PAGE_BYTES - 1] = byte,
        8 => page[place] = byte,
        9 => (page[place], page[place ^ 1]) = (byte, byte.wrapping_neg()),
        10 => (0..random.below(9)).for_each(|_| page[random.below(PAGE_BYTES as u64) as usize] = random.draw() as u8),
        _ => page.copy_from_slice(&random.bytes(PAGE_BYTES)),
    }
}
