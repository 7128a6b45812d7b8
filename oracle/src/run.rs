//! The fuelled run.

use crate::machine::{Machine, Mode, Onward};
use crate::refusal::Stop;
use crate::tally::Counting;

/// "The answer counts completed instructions, never more than the fuel".
#[derive(Clone, Copy, Debug, PartialEq, Eq)]
pub struct Ran {
    pub stop: Stop,
    pub steps: u64,
}

impl<T: Counting> Machine<'_, T> {
    /// "A run tests 9 first; then a halted state answers Ebreak at 0 steps, before fuel is looked at." "Ebreak and Ecall
    /// count, a refused one doesn't."
    pub fn run(&mut self, fuel: u64, mode: Mode) -> Ran {
        if let Err(refusal) = self.test_well_formed(mode) {
            return Ran { stop: Stop::Refused(refusal), steps: 0 };
        }
        if self.state.halted {
            return Ran { stop: Stop::Ebreak, steps: 0 };
        }
        match (mode, self.lists.is_lent()) {
            (Mode::Plain, false) => self.go::<false, false>(fuel),
            (Mode::Plain, true) => self.go::<false, true>(fuel),
            (Mode::Deferred, false) => self.go::<true, false>(fuel),
            (Mode::Deferred, true) => self.go::<true, true>(fuel),
        }
    }

    fn go<const DEFERRED: bool, const LISTING: bool>(&mut self, fuel: u64) -> Ran {
        let mut steps = 0;
        while steps < fuel {
            match self.advance::<DEFERRED, LISTING>() {
                Ok(Onward::Next) => steps += 1,
                Ok(Onward::Ebreak) => return Ran { stop: Stop::Ebreak, steps: steps + 1 },
                Ok(Onward::Ecall) => return Ran { stop: Stop::Ecall, steps: steps + 1 },
                Err(refusal) => return Ran { stop: Stop::Refused(refusal), steps },
            }
        }
        Ran { stop: Stop::Fuel, steps }
    }
}
