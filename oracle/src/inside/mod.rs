//! What the host call does not reach: one given instruction, one step and a run with pending lists, the limb operations,
//! and the lists by themselves.

mod calls;
mod compare;
mod oracle;

pub use calls::{at_the_ends, generated, Call, Left, Lists, What};
pub use compare::{Difference, InsideComparer};
pub use oracle::OracleInside;

/// The functions of the library, over bytes and numbers. An answer of three numbers is 24 bytes.
pub trait Inside {
    /// Writes code, 0, particular to the answer, and to the check 1, value, bound, or zeros where none is needed.
    fn execute(&self, lent: &mut Lent, check: &mut [u8], mode: u64, opcode: u8, registers: [u8; 3], imm: u64);
    /// Writes code, 0, particular.
    fn step(&self, lent: &mut Lent, lists: &mut Lists, mode: u64);
    /// Writes code, steps, particular.
    fn run(&self, lent: &mut Lent, lists: &mut Lists, fuel: u64, mode: u64);
    /// Writes code (0 done, 64 not needed) and the limbs before; the limbs after and whether there are carries; the
    /// carries and their total.
    fn normalize(&self, state: &mut [u8], answers: [&mut [u8]; 3], limbs: &Limbs);
    /// Writes 0, the count, 0; or the refusal's number, 0, its particular.
    fn append(&self, answer: &mut [u8], lists: &mut Lists, entry: [u64; 3]);
    /// Writes the same.
    fn empty(&self, answer: &mut [u8], lists: &mut Lists);
    /// Writes code (0 an entry, 64 none), 0, 0, and where there is an entry its value, bound and pc.
    fn read(&self, answers: [&mut [u8]; 2], lists: &Lists, at: usize);
}

/// What is lent to a step, beside the lists.
pub struct Lent<'a> {
    pub state: &'a mut [u8],
    pub memory: &'a mut [u8],
    pub answer: &'a mut [u8],
}

/// A limb operation on a register: `normalize_register`, `normalize_if_near_overflow`, or `normalize_and_write` of limbs.
#[derive(Clone, Copy, Debug, PartialEq, Eq)]
pub struct Limbs {
    pub which: u64,
    pub register: u8,
    pub limbs: [u64; 2],
}

/// The archive's functions where it has them, else the oracle itself.
pub fn subject() -> (&'static str, &'static dyn Inside) {
    #[cfg(exports)]
    return ("the archive", &crate::exported::Archive);
    #[cfg(not(exports))]
    return ("the oracle itself (no ZKIR_EXPORTS at build time)", &OracleInside);
}
