//! The limb forms of the deferred mode. "Results of the limb forms are accumulated."

use super::arithmetic::{constant, sub, sum_bound};
use super::state::{State, LIMB};

const FULL: u64 = 1 << 30;

#[inline]
fn sum([a0, a1]: [u64; 2], [b0, b1]: [u64; 2]) -> [u64; 2] {
    [a0 + b0, a1 + b1]
}

#[inline]
fn is_full([low, high]: [u64; 2]) -> bool {
    low >= FULL || high >= FULL
}

/// "Add and Addi normalise their sources when a limb sum reaches 2^30, then add again."
#[inline]
pub fn add(state: &mut State, rd: usize, rs1: usize, rs2: usize) {
    let mut limbs = sum(state.limbs(rs1), state.limbs(rs2));
    if is_full(limbs) {
        state.normalise::<true>(rs1);
        state.normalise::<true>(rs2);
        limbs = sum(state.limbs(rs1), state.limbs(rs2));
    }
    state.set_limbs(rd, limbs, sum_bound(state.bounds[rs1], state.bounds[rs2]));
}

#[inline]
pub fn add_immediate(state: &mut State, rd: usize, rs1: usize, immediate: u64) {
    let added = [immediate & LIMB, immediate >> 20 & LIMB];
    let mut limbs = sum(state.limbs(rs1), added);
    if is_full(limbs) {
        state.normalise::<true>(rs1);
        limbs = sum(state.limbs(rs1), added);
    }
    state.set_limbs(rd, limbs, sum_bound(state.bounds[rs1], constant(immediate).bound));
}

/// "Sub subtracts limb by limb if neither limb of rs1 is smaller than that of rs2. Otherwise [...] both sources are
/// normalised and the plain Sub is done."
#[inline]
pub fn subtract(state: &mut State, rd: usize, rs1: usize, rs2: usize) {
    let ([a0, a1], [b0, b1]) = (state.limbs(rs1), state.limbs(rs2));
    if a0 < b0 || a1 < b1 {
        state.normalise::<true>(rs1);
        state.normalise::<true>(rs2);
        let difference = sub(state.noted::<true>(rs1), state.noted::<true>(rs2));
        return state.set::<true>(rd, difference);
    }
    state.set_limbs(rd, [a0 - b0, a1 - b1], state.bounds[rs1].max(state.bounds[rs2]));
}
