//! One call of the run, with everything lent to it, and what it leaves.

use zkir_runtime::state::Held;

use crate::layout::{put_number, record_at, ANSWER_BYTES, STATE_BYTES};
use crate::machine::Mode;
use crate::subject::Subject;

#[derive(Clone, Debug, PartialEq, Eq)]
pub struct Case {
    pub state: Vec<u8>,
    pub memory: Vec<u8>,
    pub answer: Vec<u8>,
    pub fuel: u64,
    pub mode: u64,
}

/// What a call leaves: its return value and everything lent.
#[derive(Clone, Debug, PartialEq, Eq)]
pub struct After {
    pub code: u64,
    pub state: Vec<u8>,
    pub memory: Vec<u8>,
    pub answer: Vec<u8>,
}

impl Case {
    /// A fresh state over this memory. The answer is not zero before, so that bytes left unwritten show.
    pub fn new(mode: Mode, memory: Vec<u8>, fuel: u64) -> Self {
        Self { state: vec![0; STATE_BYTES], memory, answer: vec![0xff; ANSWER_BYTES], fuel, mode: mode as u64 }
    }

    pub fn set_pc(&mut self, pc: u64) {
        put_number(&mut self.state, 0, pc);
    }

    pub fn set_halt_mark(&mut self, mark: u8) {
        self.state[8] = mark;
    }

    /// Sets a register's record; R0 is left as it is.
    pub fn set_register(&mut self, register: u32, held: Held, bound: u8) {
        if register == 0 {
            return;
        }
        let at = record_at(register as usize);
        let (kind, numbers) = match held {
            Held::Whole(value) => (0, [value, 0]),
            Held::Accumulated(limbs) => (1, limbs),
        };
        self.state[at] = kind;
        self.state[at + 1] = bound;
        put_number(&mut self.state, at + 8, numbers[0]);
        put_number(&mut self.state, at + 16, numbers[1]);
    }

    pub fn is_deferred(&self) -> bool {
        self.mode == Mode::Deferred as u64
    }

    pub fn through(&self, subject: &dyn Subject) -> After {
        let Case { mut state, mut memory, mut answer, fuel, mode } = self.clone();
        let code = subject.run(&mut state, &mut memory, &mut answer, fuel, mode);
        After { code, state, memory, answer }
    }
}
