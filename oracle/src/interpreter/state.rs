//! The state, changed in place.

use super::arithmetic::{cut, noted, Noted};

pub const LIMB: u64 = (1 << 20) - 1;

/// "A register is whole (64 bits) or accumulated (two limbs)." The high limb of a whole one does not count.
pub struct State {
    pub pc: u64,
    pub halted: bool,
    /// A bit for each register.
    pub(super) accumulated: u32,
    pub(super) low: [u64; 16],
    pub(super) high: [u64; 16],
    pub(super) bounds: [u8; 16],
}

impl State {
    #[inline]
    pub fn all_whole(&self) -> bool {
        self.accumulated == 0
    }

    #[inline]
    pub fn is_accumulated(&self, register: usize) -> bool {
        self.accumulated >> register & 1 == 1
    }

    /// The value, as normalising would leave it. "the register's value is low + 2^20 * high, modulo 2^40".
    #[inline]
    pub fn value<const DEFERRED: bool>(&self, register: usize) -> u64 {
        if DEFERRED && self.is_accumulated(register) {
            return cut(self.low[register] + (self.high[register] << 20));
        }
        self.low[register]
    }

    #[inline]
    pub fn noted<const DEFERRED: bool>(&self, register: usize) -> Noted {
        noted(self.value::<DEFERRED>(register), self.bounds[register])
    }

    /// Normalising "makes it whole, keeps its bound". In the plain mode no register is accumulated.
    #[inline]
    pub fn normalise<const DEFERRED: bool>(&mut self, register: usize) {
        if DEFERRED && self.is_accumulated(register) {
            self.low[register] = self.value::<DEFERRED>(register);
            self.accumulated &= !(1 << register);
        }
    }

    /// "R0 is whole, zero, bound 0, and ignores writes of either."
    #[inline]
    pub fn set<const DEFERRED: bool>(&mut self, register: usize, result: Noted) {
        if register == 0 {
            return;
        }
        self.low[register] = result.value;
        self.bounds[register] = result.bound;
        if DEFERRED {
            self.accumulated &= !(1 << register);
        }
    }

    /// "A whole register's limbs are bits 0-19 and 20-39."
    #[inline]
    pub fn limbs(&self, register: usize) -> [u64; 2] {
        let low = self.low[register];
        if self.is_accumulated(register) {
            return [low, self.high[register]];
        }
        [low & LIMB, low >> 20 & LIMB]
    }

    #[inline]
    pub fn set_limbs(&mut self, register: usize, [low, high]: [u64; 2], bound: u8) {
        if register == 0 {
            return;
        }
        self.accumulated |= 1 << register;
        self.low[register] = low;
        self.high[register] = high;
        self.bounds[register] = bound;
    }
}
