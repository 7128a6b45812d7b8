use zkir_runtime::state::Held;
use zkir_spec::Opcode;

use crate::assemble::{i, image, jal, r, EBREAK, ECALL};
use crate::case::Case;
use crate::random::Random;

use super::{mode, strew};

/// Some steps, then a word that is refused: 1 to 7, each as likely as the others.
pub fn refusal(random: &mut Random) -> Case {
    let mut program: Vec<u32> = (0..random.below(6)).map(|_| r(Opcode::Add, 1, 1, 2)).collect();
    let here = 4 * program.len() as i32;
    program.push(match random.below(7) {
        0 => r(random.pick(&[Opcode::Div, Opcode::Divu, Opcode::Rem, Opcode::Remu]), 3, 1, 0),
        1 => i(random.pick(&[Opcode::Lb, Opcode::Lw, Opcode::Ld]), 3, 0, 64),
        2 => i(random.pick(&[Opcode::Lh, Opcode::Lw, Opcode::Ld]), 3, 0, 1),
        3 => random.draw() as u32 & !0x7f | random.pick(&[0, 51, 52, 63, 64, 100, 127]),
        4 => unused_bits(random),
        5 => jal(4, 2 + here % 4),
        _ => jal(4, 64 - here + 4 * random.below(3) as i32),
    });
    let mut case = Case::new(mode(random), image(&program, 64), 20);
    strew(&mut case, random);
    case
}

fn unused_bits(random: &mut Random) -> u32 {
    match random.below(3) {
        0 => r(random.pick(&[Opcode::Add, Opcode::Mulh, Opcode::Cmovnz]), 1, 2, 3) | 1 << random.between(19, 31),
        1 => i(random.pick(&[Opcode::Slli, Opcode::Srli, Opcode::Srai]), 1, 2, 1 << random.between(6, 16)),
        _ => random.pick(&[ECALL, EBREAK]) | 1 << random.between(7, 31),
    }
}

/// Stops of each kind, from states that are halted or not, with and without fuel for them.
pub fn stop(random: &mut Random) -> Case {
    let mut program: Vec<u32> = (0..random.below(5)).map(|_| i(Opcode::Addi, 1, 1, 5)).collect();
    program.extend([random.pick(&[ECALL, EBREAK]), ECALL, EBREAK]);
    let mut case = Case::new(mode(random), image(&program, 32), random.below(7));
    strew(&mut case, random);
    case.set_register(1, Held::Whole(random.below(9)), 4);
    if random.chance(4) {
        case.set_halt_mark(1);
    }
    if random.chance(4) {
        case.set_pc(random.pick(&[2, 32, 4, u64::MAX, u64::MAX - 3]));
    }
    case
}
