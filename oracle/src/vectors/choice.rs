//! Which calls are in the list.

use zkir_runtime::state::Held;
use zkir_spec::Opcode;

use crate::assemble::{i, image, jal, r, s, word, EBREAK};
use crate::case::Case;
use crate::corners::{at_the_ends, bound, operands, sharings, IMMEDIATES};
use crate::generate::{self, FAMILIES};
use crate::listed;
use crate::machine::Mode;
use crate::random::Random;
use crate::sweep::{with_operands, Share, LARGE, SMALL};

use super::Call;

const SEED: u64 = 1;

pub fn sections() -> Vec<(String, Vec<Call>)> {
    let mut all = vec![("document 01's corners, in its order, plain and deferred".to_string(), named())];
    all.push(("every opcode on corner operands".to_string(), every_opcode(20)));
    all.push(("loads and stores at the ends of memory".to_string(), accesses()));
    let sampled =
        [("bounds", 700), ("shift amounts", 2000), ("limbs", 12000), ("addresses", 150), ("words", 15), ("damages", 8)];
    for (name, section) in SMALL.into_iter().chain(LARGE) {
        let Some((_, one_in)) = sampled.into_iter().find(|(taken, _)| *taken == name) else { continue };
        let mut calls = Vec::new();
        section(&mut Share::one_in(one_in, SEED), &mut |case| calls.push(Call::Host(case)));
        all.push((format!("enumerated {name}, one in {one_in}"), calls));
    }
    let mut random = Random::seeded(SEED);
    for (name, family) in FAMILIES {
        let calls = (0..40).map(|_| Call::Host(family(&mut random))).filter(fits_the_buffers).collect();
        all.push((format!("generated: {name}"), calls));
    }
    all.push(("runs with lists".to_string(), (0..160).map(|_| Call::Listed(listed::generated(&mut random))).collect()));
    all
}

/// So many generated calls, for a reader that stands in for the archive where it cannot be linked.
pub fn generated(count: u64, seed: u64) -> Vec<Call> {
    let mut random = Random::seeded(seed);
    (0..count).map(|_| Call::Host(generate::any(&mut random))).filter(fits_the_buffers).collect()
}

/// Damages make states longer than a reader's buffer; those stay with the comparison.
fn fits_the_buffers(call: &Call) -> bool {
    let Call::Host(case) = call else { return true };
    case.state.len() <= 408 && case.memory.len() <= 1024 && case.answer.len() <= 32
}

/// So many calls for each opcode and mode; only accesses get memory behind their word.
fn every_opcode(calls: usize) -> Vec<Call> {
    let mut random = Random::seeded(SEED);
    let mut all = Vec::new();
    for mode in Mode::BOTH {
        let operands = operands(mode == Mode::Deferred);
        for opcode in Opcode::ALL {
            for _ in 0..calls {
                let registers = random.pick(&sharings());
                let held = [0; 3].map(|_: u32| random.pick(&operands));
                let notes = [0; 3].map(|_: u32| bound(&mut random));
                let word = word(opcode, registers, random.pick(&IMMEDIATES));
                let mut case = with_operands(mode, word, registers, held, notes);
                let accesses = (Opcode::Lb as u8..=Opcode::Sd as u8).contains(&opcode.to_u8());
                case.memory.truncate(if accesses { 24 } else { 4 });
                all.push(Call::Host(case));
            }
        }
    }
    all
}

/// The shortest memories lack the word of the load or store.
fn accesses() -> Vec<Call> {
    let call = |(mode, opcode, length, address)| {
        let held = [0, address, 0xfedc_ba98_7654_3210].map(Held::Whole);
        let mut case = with_operands(mode, word(opcode, [3, 1, 2], 0), [3, 1, 2], held, [0, 64, 64]);
        case.memory.truncate(length);
        Call::Host(case)
    };
    at_the_ends().map(call).collect()
}

fn named() -> Vec<Call> {
    Mode::BOTH.into_iter().flat_map(corners).map(Call::Host).collect()
}

/// P1 to P12 as steps, the corners that are run only, and the worked example. P1 and P2 are the immediates' limits.
fn corners(mode: Mode) -> Vec<Case> {
    const TOP: u64 = 1 << 40;
    let operation = |opcode, a, b| {
        let held = [Held::Whole(0), Held::Whole(a), Held::Whole(b)];
        let mut case = with_operands(mode, r(opcode, 3, 1, 2), [3, 1, 2], held, [0, 64, 64]);
        case.memory.truncate(4);
        case
    };
    let program = |words: &[u32], length, fuel| Case::new(mode, image(words, length), fuel);
    let lw = |imm| i(Opcode::Lw, 1, 0, imm);
    let mut all = vec![
        program(&[i(Opcode::Addi, 1, 0, 65535), i(Opcode::Addi, 2, 0, -65536)], 8, 2),
        program(&[jal(1, 1048575)], 4, 1),
        program(&[jal(1, -1048576)], 4, 1),
        operation(Opcode::Add, 1, 2),
        program(&[0xFFFF8089], 4, 1),
        program(&[i(Opcode::Addi, 2, 0, 4), i(Opcode::Addi, 3, 0, -2), s(Opcode::Sw, 2, 3, 8)], 16, 3),
        program(&[EBREAK, 0xFFFFE7AF], 8, 2),
    ];
    all[6].set_pc(4);
    if mode == Mode::Deferred {
        let mut full = program(&[r(Opcode::Or, 2, 1, 0)], 4, 1);
        full.set_register(1, Held::Accumulated([(1 << 30) - 1; 2]), 64);
        all.push(full);
    }
    all.extend([
        operation(Opcode::Mulh, u64::MAX, u64::MAX),
        operation(Opcode::Mulh, TOP - 1, TOP - 1),
        operation(Opcode::Div, 1 << 63, u64::MAX),
        operation(Opcode::Rem, 1 << 63, u64::MAX),
        operation(Opcode::Sll, 1, 39),
        operation(Opcode::Sll, 1, 40),
        operation(Opcode::Sll, 1, 64),
        operation(Opcode::Sra, 1 << 39, 63),
        operation(Opcode::Seq, u64::MAX, TOP - 1),
        operation(Opcode::Sltu, u64::MAX, TOP - 1),
        operation(Opcode::Sltu, TOP - 1, u64::MAX),
        program(&[0], 64, 1),
        program(&[i(Opcode::Slli, 1, 1, 64)], 64, 1),
        program(&[], 3, 1),
        program(&[lw(60)], 64, 1),
        program(&[lw(64)], 64, 1),
        program(&[lw(1)], 64, 1),
        operation(Opcode::Div, TOP - 8, 2),
        program(&[i(Opcode::Jalr, 1, 1, 3)], 8, 1),
        program(&[0xFFFF8089, 0x00008901, EBREAK], 12, 1_000_000),
    ]);
    all
}
