//! What the oracle met on its way: shows that generated programs get far, and which calls the published text judged.

use zkir_spec::Opcode;

use crate::machine::Mode;

#[derive(Clone)]
pub struct Tally {
    /// Completed instructions by opcode number, plain and deferred.
    completed: [[u64; 51]; 2],
    /// Calls by the code of their stop.
    stops: [u64; 66],
    /// Deferred sums whose limbs reached 2^30.
    pub forced: u64,
    /// Deferred differences that borrow: document 01's rule, not the published text, judges them.
    pub borrows: u64,
    /// Accumulated sources normalised before another instruction: likewise.
    pub settled: u64,
    /// Checks appended to lent lists.
    pub listed: u64,
}

impl Tally {
    pub fn new() -> Self {
        Self { completed: [[0; 51]; 2], stops: [0; 66], forced: 0, borrows: 0, settled: 0, listed: 0 }
    }

    pub fn count_completed(&mut self, opcode: Opcode, mode: Mode) {
        self.completed[mode as usize][opcode.to_u8() as usize] += 1;
    }

    pub fn count_stop(&mut self, code: u64) {
        self.stops[code as usize] += 1;
    }

    pub fn completed(&self, opcode: Opcode, mode: Mode) -> u64 {
        self.completed[mode as usize][opcode.to_u8() as usize]
    }

    pub fn stopped(&self, code: u64) -> u64 {
        self.stops[code as usize]
    }

    pub fn instructions(&self) -> u64 {
        self.completed.iter().flatten().sum()
    }

    /// Steps that only document 01 judges, since the published text does not have them.
    pub fn outside_the_domain(&self) -> u64 {
        self.borrows + self.settled
    }
}

/// Where a run counts what it meets. One that is measured counts nothing, and does no work for it.
pub trait Counting {
    fn count(&mut self, note: impl FnOnce(&mut Tally));
}

impl Counting for Tally {
    fn count(&mut self, note: impl FnOnce(&mut Tally)) {
        note(self)
    }
}

pub struct Uncounted;

impl Counting for Uncounted {
    #[inline(always)]
    fn count(&mut self, _note: impl FnOnce(&mut Tally)) {}
}

impl Default for Tally {
    fn default() -> Self {
        Self::new()
    }
}
