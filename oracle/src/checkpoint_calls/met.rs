use std::fmt;

use crate::checkpoint::{is_lendable, Broken, Contents, PAGE_BYTES};
use crate::layout::STATE_BYTES;

use super::call::{held, Call, Left, What};

/// What the calls met, as the oracle answers them: every refusal for every reason must be among it.
#[derive(Clone, Copy, Debug, Default, PartialEq, Eq)]
pub struct Met {
    pub writes: Side,
    pub small_rooms: u64,
    pub reads: Side,
    /// Images refused, by the rule that the oracle finds broken.
    pub broken: [u64; Broken::ALL.len()],
}

/// What both calls have.
#[derive(Clone, Copy, Debug, Default, PartialEq, Eq)]
pub struct Side {
    pub done: u64,
    /// In all images that were written or read.
    pub held: u64,
    pub not_held: u64,
    pub memory_lengths: u64,
    pub state_lengths: u64,
    pub malformed_states: u64,
}

impl Met {
    pub fn count(&mut self, call: &Call, left: &Left) {
        let lent = &call.lent;
        match (call.what, left.told.code) {
            (What::Write, 11) => self.small_rooms += 1,
            (What::Read, 11) => {
                let broken = Contents::of(&lent.image, lent.memory.len()).err().expect("it was refused");
                self.broken[broken as usize] += 1;
            }
            (What::Write, _) => self.writes.count(&lent.state, left),
            (What::Read, _) => self.reads.count(&lent.state, left),
        }
    }

    pub fn met(&self, broken: Broken) -> u64 {
        self.broken[broken as usize]
    }
}

impl Side {
    fn count(&mut self, state: &[u8], left: &Left) {
        let memory = &left.lent.memory;
        if left.told.code == 0 {
            let held = held(memory) as u64;
            self.done += 1;
            self.held += held;
            self.not_held += (memory.len() / PAGE_BYTES) as u64 - held;
            return;
        }
        *(match state.len() {
            _ if !is_lendable(memory) => &mut self.memory_lengths,
            STATE_BYTES => &mut self.malformed_states,
            _ => &mut self.state_lengths,
        }) += 1;
    }
}

impl fmt::Display for Met {
    fn fmt(&self, f: &mut fmt::Formatter) -> fmt::Result {
        writeln!(f, "  written {}, (11) for the room {}", self.writes, self.small_rooms)?;
        write!(f, "  read {}, (11) by rule:", self.reads)?;
        let rules = Broken::ALL.iter().map(|&rule| format!(" {rule:?} {}", self.met(rule)));
        write!(f, "{}", rules.collect::<Vec<_>>().join(","))
    }
}

impl fmt::Display for Side {
    fn fmt(&self, f: &mut fmt::Formatter) -> fmt::Result {
        let Side { done, held, not_held, memory_lengths, state_lengths, malformed_states } = self;
        write!(
            f,
            "{done}, with {held} pages held and {not_held} not, refused (9) for the memory's length {memory_lengths}, "
        )?;
        write!(f, "the state's {state_lengths}, a malformed state {malformed_states}")
    }
}
