//! Calls of one step, enumerated: all opcodes on all pairs of corners, and every limit that a step tests.

use zkir_runtime::state::Held;
use zkir_spec::Opcode;

use crate::assemble::{image, word};
use crate::case::Case;
use crate::corners::{operands, sharings, BOUNDS, IMMEDIATES, LIMBS, VALUES};
use crate::generate::damage;
use crate::machine::Mode;
use crate::random::Random;

/// Takes about one of every so many calls that are enumerated, chosen by the seed; all of them where that is 1.
pub struct Share {
    one_in: u64,
    random: Random,
}

impl Share {
    pub fn one_in(one_in: u64, seed: u64) -> Self {
        Self { one_in, random: Random::seeded(seed) }
    }

    pub fn all() -> Self {
        Self::one_in(1, 0)
    }

    fn takes(&mut self) -> bool {
        self.one_in == 1 || self.random.chance(self.one_in)
    }
}

type Section = fn(&mut Share, &mut dyn FnMut(Case));

/// The sections that are small enough to be compared whole each time.
pub const SMALL: [(&str, Section); 2] = [("words", words), ("damages", damages)];

pub const LARGE: [(&str, Section); 6] = [
    ("register pairs", register_pairs),
    ("immediates", immediates),
    ("bounds", bounds),
    ("shift amounts", shift_amounts),
    ("limbs", limbs),
    ("addresses", addresses),
];

const MEMORY: usize = 64;

/// One instruction at address 0, and behind it bytes of both signs.
fn one_step(mode: Mode, word: u32) -> Case {
    let mut memory = image(&[word], MEMORY);
    for (at, byte) in memory.iter_mut().enumerate().skip(4) {
        *byte = (37 * at + 0x85) as u8;
    }
    Case::new(mode, memory, 1)
}

/// The step with rd, rs1 and rs2 set in this order, so that a shared register holds what its last name has.
pub fn with_operands(mode: Mode, word: u32, registers: [u32; 3], held: [Held; 3], notes: [u8; 3]) -> Case {
    let mut case = one_step(mode, word);
    for place in 0..3 {
        case.set_register(registers[place], held[place], notes[place]);
    }
    case
}

/// What rd holds before, where it is no source.
fn old_destination(mode: Mode) -> Held {
    match mode {
        Mode::Plain => Held::Whole(0x1234_5678_9abc_def0),
        Mode::Deferred => Held::Accumulated([0x2345_6789, 0x1bcd_ef01]),
    }
}

/// Every opcode, every sharing of registers, all pairs of corner operands; the bounds go round.
fn register_pairs(share: &mut Share, visit: &mut dyn FnMut(Case)) {
    let mut turn = 0;
    for mode in Mode::BOTH {
        let operands = operands(mode == Mode::Deferred);
        for opcode in Opcode::ALL {
            for registers in sharings() {
                for &a in &operands {
                    for &b in &operands {
                        turn += 1;
                        if share.takes() {
                            let notes = [1, 5, 7].map(|stride| BOUNDS[turn * stride / 3 % BOUNDS.len()]);
                            let word = word(opcode, registers, 8);
                            visit(with_operands(mode, word, registers, [old_destination(mode), a, b], notes));
                        }
                    }
                }
            }
        }
    }
}

fn immediates(share: &mut Share, visit: &mut dyn FnMut(Case)) {
    for mode in Mode::BOTH {
        for opcode in Opcode::ALL {
            for registers in sharings() {
                for imm in IMMEDIATES {
                    for a in operands(mode == Mode::Deferred) {
                        if share.takes() {
                            let held = [old_destination(mode), a, Held::Whole(imm as u64)];
                            visit(with_operands(mode, word(opcode, registers, imm), registers, held, [3, 33, 40]));
                        }
                    }
                }
            }
        }
    }
}

/// Every pair of notes of the sources, and every note of the destination.
fn bounds(share: &mut Share, visit: &mut dyn FnMut(Case)) {
    for mode in Mode::BOTH {
        for opcode in Opcode::ALL {
            for a in 0..=64 {
                for b in 0..=64 {
                    if share.takes() {
                        let held = [Held::Whole(1), Held::Whole(100), Held::Whole(3)];
                        visit(with_operands(mode, word(opcode, [3, 1, 2], 1), [3, 1, 2], held, [64 - a, a, b]));
                    }
                }
            }
        }
    }
}

fn shift_amounts(share: &mut Share, visit: &mut dyn FnMut(Case)) {
    let opcodes = [Opcode::Sll, Opcode::Srl, Opcode::Sra, Opcode::Slli, Opcode::Srli, Opcode::Srai];
    for mode in Mode::BOTH {
        for opcode in opcodes {
            for amount in 0..=130 {
                for value in VALUES {
                    for bound in BOUNDS {
                        if share.takes() {
                            let held = [Held::Whole(0), Held::Whole(value), Held::Whole(amount)];
                            let word = word(opcode, [3, 1, 2], amount as i32);
                            visit(with_operands(mode, word, [3, 1, 2], held, [0, bound, 8]));
                        }
                    }
                }
            }
        }
    }
}

/// The three limb forms on all pairs of registers with corner limbs, and around a sum of 2^30.
fn limbs(share: &mut Share, visit: &mut dyn FnMut(Case)) {
    let near = LIMBS.into_iter().chain((0..6).map(|less| (1 << 29) - 3 + less)).collect::<Vec<u64>>();
    for opcode in [Opcode::Add, Opcode::Sub, Opcode::Addi] {
        for registers in sharings() {
            for imm in [1, -1, 65535, -65536] {
                for number in 0..near.len().pow(4) {
                    if share.takes() {
                        let limb = |place: u32| near[number / near.len().pow(place) % near.len()];
                        let (a, b) = ([limb(0), limb(1)], [limb(2), limb(3)]);
                        let held = [Held::Whole(0), Held::Accumulated(a), Held::Accumulated(b)];
                        let word = word(opcode, registers, imm);
                        visit(with_operands(Mode::Deferred, word, registers, held, [0, 41, 40]));
                    }
                }
            }
        }
    }
}

/// Every access at every address around memory's end, around 0 and around 2^64, over memories of every length.
fn addresses(share: &mut Share, visit: &mut dyn FnMut(Case)) {
    for mode in Mode::BOTH {
        for number in Opcode::Lb as u8..=Opcode::Sd as u8 {
            let opcode = Opcode::from_u8(number).expect("loads and stores lie together");
            for length in 4..=40 {
                for address in -10..=length as i64 + 2 {
                    for imm in [0, -16, 65535] {
                        if share.takes() {
                            let base = Held::Whole((address - imm as i64) as u64);
                            let held = [Held::Whole(0), base, Held::Whole(0xfedc_ba98_7654_3210)];
                            let mut case =
                                with_operands(mode, word(opcode, [3, 1, 2], imm), [3, 1, 2], held, [0, 64, 64]);
                            case.memory.truncate(length);
                            visit(case);
                        }
                    }
                }
            }
        }
    }
}

/// Every opcode number with no other bit, with each other bit alone and with all of them; every pc near memory's end.
fn words(share: &mut Share, visit: &mut dyn FnMut(Case)) {
    let rests = [0, !0x7f].into_iter().chain((7..32).map(|bit| 1 << bit)).collect::<Vec<u32>>();
    for mode in Mode::BOTH {
        for number in 0..128 {
            for rest in &rests {
                if share.takes() {
                    visit(one_step(mode, number | rest));
                }
            }
        }
        for pc in (0..72).chain(u64::MAX - 8..=u64::MAX) {
            for length in [0, 1, 3, 4, 5, 63, 64] {
                if share.takes() {
                    let mut case = one_step(mode, Opcode::Ebreak as u32);
                    case.memory.truncate(length);
                    case.set_pc(pc);
                    visit(case);
                }
            }
        }
    }
}

fn damages(share: &mut Share, visit: &mut dyn FnMut(Case)) {
    for mode in Mode::BOTH {
        let mut good = one_step(mode, word(Opcode::Add, [3, 1, 2], 0));
        good.set_register(1, Held::Whole(5), 3);
        good.set_register(2, Held::Whole(7), 3);
        damage::every(&good, &mut |case| {
            if share.takes() {
                visit(case);
            }
        });
    }
}
