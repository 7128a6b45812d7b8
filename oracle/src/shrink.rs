//! Makes a call that shows a difference as small as it gets.

use crate::case::Case;
use crate::layout::{number, put_number, record_at, ANSWER_BYTES, STATE_BYTES};
use crate::subject::Oracle;

/// The smallest call that can be reached by the reductions below and on which the predicate still holds.
pub fn shrink(case: Case, still: &dyn Fn(&Case) -> bool) -> Case {
    let mut smallest = case;
    'again: loop {
        for candidate in candidates(&smallest) {
            if size(&candidate) < size(&smallest) && still(&candidate) {
                smallest = candidate;
                continue 'again;
            }
        }
        return smallest;
    }
}

/// Calls are compared by this, the first number first; every reduction that is taken lowers it, so shrinking ends.
fn size(case: &Case) -> (u64, usize, usize, u64, u64, u64, u64) {
    let awkward = case.state.len().abs_diff(STATE_BYTES) + case.answer.len().abs_diff(ANSWER_BYTES);
    let nonzero = |bytes: &[u8]| bytes.iter().filter(|&&byte| byte != 0).count() as u64;
    let bits = |bytes: &[u8]| bytes.iter().map(|&byte| byte.count_ones() as u64).sum::<u64>();
    let sum = |bytes: &[u8]| bytes.iter().map(|&byte| byte as u64).sum::<u64>();
    let all = |of: &dyn Fn(&[u8]) -> u64| of(&case.state) + of(&case.memory) + of(&case.answer);
    (case.fuel, case.memory.len(), awkward, all(&nonzero), all(&bits), all(&sum), case.mode)
}

fn candidates(case: &Case) -> Vec<Case> {
    let mut all = Vec::new();
    fewer_steps(case, &mut all);
    later_starts(case, &mut all);
    plainer_call(case, &mut all);
    less_memory(case, &mut all);
    if case.state.len() == STATE_BYTES {
        plainer_registers(case, &mut all);
    }
    fewer_bits(case, &mut all);
    all
}

/// `case` with one change.
fn with(case: &Case, change: impl FnOnce(&mut Case)) -> Case {
    let mut changed = case.clone();
    change(&mut changed);
    changed
}

fn fewer_steps(case: &Case, all: &mut Vec<Case>) {
    let steps = steps(case);
    for fuel in [0, 1, steps / 2, steps, steps.saturating_add(1), case.fuel / 2, case.fuel.saturating_sub(1)] {
        all.push(with(case, |call| call.fuel = fuel));
    }
}

/// The same run, begun where the oracle is after some steps.
fn later_starts(case: &Case, all: &mut Vec<Case>) {
    let steps = steps(case);
    for skipped in [steps, steps.saturating_sub(1), steps - steps / 4, steps / 2, steps / 4, 1] {
        let begun = with(case, |call| call.fuel = skipped).through(&Oracle);
        if 0 < skipped && skipped < case.fuel && begun.code == 0 {
            let fuel = case.fuel - skipped;
            all.push(Case { state: begun.state, memory: begun.memory, fuel, ..case.clone() });
        }
    }
}

fn steps(case: &Case) -> u64 {
    let after = case.through(&Oracle);
    if after.answer.len() == ANSWER_BYTES {
        number(&after.answer, 8)
    } else {
        0
    }
}

fn plainer_call(case: &Case, all: &mut Vec<Case>) {
    all.push(with(case, |call| call.mode = 0));
    all.push(with(case, |call| call.mode = 1));
    all.push(with(case, |call| call.mode /= 2));
    all.push(with(case, |call| call.answer = vec![0; ANSWER_BYTES]));
    all.push(with(case, |call| call.answer.fill(0)));
    all.push(with(case, |call| call.state.resize(STATE_BYTES, 0)));
}

fn less_memory(case: &Case, all: &mut Vec<Case>) {
    let length = case.memory.len();
    if case.state.len() >= 8 {
        let pc = number(&case.state, 0) as usize;
        if pc.checked_add(4).is_some_and(|end| end <= length) {
            for end in [pc + 4, length] {
                all.push(with(case, |call| {
                    call.memory = call.memory[pc..end].to_vec();
                    call.set_pc(0);
                }));
            }
        }
    }
    for shorter in [0, length / 2, length.saturating_sub(8), length.saturating_sub(4), length.saturating_sub(1)] {
        all.push(with(case, |call| call.memory.truncate(shorter)));
    }
    let mut part = length / 2;
    while part >= 1 {
        for from in (0..length).step_by(part) {
            all.push(with(case, |call| call.memory[from..(from + part).min(length)].fill(0)));
        }
        part /= 2;
    }
}

fn plainer_registers(case: &Case, all: &mut Vec<Case>) {
    all.push(with(case, |call| call.state.fill(0)));
    all.push(with(case, |call| call.set_pc(0)));
    for register in 0..16 {
        let at = record_at(register);
        all.push(with(case, |call| call.state[at..at + 24].fill(0)));
        all.push(with(case, |call| call.state[at + 1] = 0));
        for place in [at + 8, at + 16] {
            let held = number(&case.state, place);
            for simpler in [0, 1, held % (1 << 20), held % (1 << 40), held >> 1, held & held.wrapping_sub(1)] {
                all.push(with(case, |call| put_number(&mut call.state, place, simpler)));
            }
        }
    }
}

/// Each byte zero or without one of its bits; of the memory only once it is short.
fn fewer_bits(case: &Case, all: &mut Vec<Case>) {
    let states = (0..case.state.len()).map(|at| (true, at));
    let memory_bytes = if case.memory.len() <= 64 { case.memory.len() } else { 0 };
    for (in_state, at) in states.chain((0..memory_bytes).map(|at| (false, at))) {
        let byte = if in_state { case.state[at] } else { case.memory[at] };
        let simpler = (0..8).map(|bit| byte & !(1 << bit)).chain([byte >> 1, 0]);
        for simpler in simpler.filter(|&simpler| simpler != byte) {
            all.push(with(case, |call| {
                *(if in_state { &mut call.state[at] } else { &mut call.memory[at] }) = simpler;
            }));
        }
    }
}
