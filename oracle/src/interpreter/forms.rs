//! What the instructions of one form have in common. Each answers the next pc, or why the run stops.
//!
//! "In a deferred run every other instruction first normalises its rs1, then rs2, as far as it has them"; "A refused step
//! restores even normalised sources": here they are normalised once nothing can be refused any more.

use crate::refusal::{Refusal, Stop};

use super::arithmetic::{constant, noted, Noted};
use super::fields::{first, has_funct, immediate, second, shift_amount, third};
use super::memory;
use super::state::State;

pub type Stepped = Result<u64, Stop>;

/// The machine in the middle of a step.
pub struct Step<'s, const DEFERRED: bool> {
    pub state: &'s mut State,
    pub memory: &'s mut [u8],
    pub pc: u64,
    pub word: u32,
}

impl<const DEFERRED: bool> Step<'_, DEFERRED> {
    #[inline]
    pub fn next(&self) -> Stepped {
        Ok(self.pc.wrapping_add(4))
    }

    #[inline]
    pub fn refuse<T>(&self, refusal: Refusal) -> Result<T, Stop> {
        Err(Stop::Refused(refusal))
    }

    /// rd, rs1 and rs2 of form R, whose "nonzero funct" is refused (5).
    #[inline]
    pub fn three_registers(&self) -> Result<[usize; 3], Stop> {
        let word = self.word;
        if has_funct(word) {
            return self.refuse(Refusal::Operands { word });
        }
        Ok([first(word), second(word), third(word)])
    }

    #[inline]
    fn settle(&mut self, sources: [usize; 2]) -> [Noted; 2] {
        sources.into_iter().for_each(|source| self.state.normalise::<DEFERRED>(source));
        sources.map(|source| noted(self.state.low[source], self.state.bounds[source]))
    }

    #[inline]
    pub fn by_registers(&mut self, result: impl FnOnce(Noted, Noted) -> Noted) -> Stepped {
        let [rd, rs1, rs2] = self.three_registers()?;
        let [a, b] = self.settle([rs1, rs2]);
        self.state.set::<DEFERRED>(rd, result(a, b));
        self.next()
    }

    /// "divisor 0" is refused (1). "Division: the dividend's" bound.
    #[inline]
    pub fn by_division(&mut self, result: impl FnOnce(u64, u64) -> u64) -> Stepped {
        let [rd, rs1, rs2] = self.three_registers()?;
        if self.state.value::<DEFERRED>(rs2) == 0 {
            return self.refuse(Refusal::DivisorZero { pc: self.pc });
        }
        let [a, b] = self.settle([rs1, rs2]);
        self.state.set::<DEFERRED>(rd, noted(result(a.value, b.value), a.bound));
        self.next()
    }

    /// "A move that happens: larger of source's and destination's."
    #[inline]
    pub fn by_move(&mut self, happens: impl FnOnce(u64) -> bool) -> Stepped {
        let [rd, rs1, rs2] = self.three_registers()?;
        let [a, b] = self.settle([rs1, rs2]);
        if happens(b.value) {
            let bound = a.bound.max(self.state.bounds[rd]);
            self.state.set::<DEFERRED>(rd, noted(a.value, bound));
        }
        self.next()
    }

    #[inline]
    pub fn by_immediate(&mut self, result: impl FnOnce(Noted, Noted) -> Noted) -> Stepped {
        let (rd, rs1) = (first(self.word), second(self.word));
        let [a, _] = self.settle([rs1, 0]);
        self.state.set::<DEFERRED>(rd, result(a, constant(immediate(self.word))));
        self.next()
    }

    /// "a shift amount over 63 [...] is refused (5)."
    #[inline]
    pub fn by_shift_amount(&mut self, result: impl FnOnce(Noted, u32) -> Noted) -> Stepped {
        let word = self.word;
        let amount = shift_amount(word);
        if amount > 63 {
            return self.refuse(Refusal::Operands { word });
        }
        let [a, _] = self.settle([second(word), 0]);
        self.state.set::<DEFERRED>(first(word), result(a, amount));
        self.next()
    }

    /// "Register plus immediate, modulo 2^64".
    #[inline]
    fn address(&self, register: usize) -> u64 {
        self.state.value::<DEFERRED>(register).wrapping_add(immediate(self.word))
    }

    #[inline]
    pub fn by_load<const SIZE: usize>(&mut self, bound: u8, read: impl FnOnce([u8; SIZE]) -> u64) -> Stepped {
        let (rd, rs1) = (first(self.word), second(self.word));
        let bytes = memory::load(self.memory, self.address(rs1)).map_err(Stop::Refused)?;
        self.state.normalise::<DEFERRED>(rs1);
        self.state.set::<DEFERRED>(rd, noted(read(bytes), bound));
        self.next()
    }

    #[inline]
    pub fn by_store<const SIZE: usize>(&mut self, written: impl FnOnce(u64) -> [u8; SIZE]) -> Stepped {
        let (rs1, rs2) = (first(self.word), second(self.word));
        let bytes = written(self.state.value::<DEFERRED>(rs2));
        memory::store(self.memory, self.address(rs1), bytes).map_err(Stop::Refused)?;
        self.state.normalise::<DEFERRED>(rs1);
        self.state.normalise::<DEFERRED>(rs2);
        self.next()
    }

    #[inline]
    pub fn by_branch(&mut self, taken: impl FnOnce(u64, u64) -> bool) -> Stepped {
        let [a, b] = self.settle([first(self.word), second(self.word)]);
        let by = if taken(a.value, b.value) { immediate(self.word) } else { 4 };
        Ok(self.pc.wrapping_add(by))
    }

    /// Notes the return address in rd and goes to the target, which is computed before.
    #[inline]
    pub fn jump(&mut self, target: u64) -> Stepped {
        self.state.set::<DEFERRED>(first(self.word), constant(self.pc.wrapping_add(4)));
        Ok(target)
    }

    #[inline]
    pub fn jump_to_register(&mut self) -> Stepped {
        let rs1 = second(self.word);
        let target = self.address(rs1) & !1;
        self.state.normalise::<DEFERRED>(rs1);
        self.jump(target)
    }
}
