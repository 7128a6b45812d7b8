use zkir_runtime::state::Held;
use zkir_spec::Opcode;

use crate::assemble::{image, word};
use crate::case::Case;
use crate::corners;
use crate::random::Random;

use super::{mode, strew};

const CODE_WORDS: i64 = 32;
const LENGTH: usize = 256;

/// Valid instructions without a plan, chosen so that most go on: accesses fall into memory, branches into the code.
pub fn soup(random: &mut Random) -> Case {
    let words: Vec<u32> = (0..CODE_WORDS).map(|at| soup_word(at, random)).collect();
    let mut case = Case::new(mode(random), image(&words, LENGTH), random.below(400));
    for at in 4 * CODE_WORDS as usize..LENGTH {
        case.memory[at] = random.draw() as u8;
    }
    strew(&mut case, random);
    for divisor in 12..16 {
        case.set_register(divisor, Held::Whole(corners::value(random) | 1), corners::bound(random));
    }
    case
}

fn soup_word(at: i64, random: &mut Random) -> u32 {
    let opcode = random.pick(&Opcode::ALL);
    let rd = random.below(12) as u32;
    let rs1 = random.below(16) as u32;
    let rs2 = random.below(16) as u32;
    let inside = 4 * (random.below(CODE_WORDS as u64) as i64 - at) as i32;
    let address = random.below(LENGTH as u64) as i32;
    let often = !random.chance(16);
    match opcode {
        Opcode::Div | Opcode::Divu | Opcode::Rem | Opcode::Remu if often => {
            word(opcode, [rd, rs1, random.between(12, 15) as u32], 0)
        }
        Opcode::Jalr if often => word(opcode, [rd, 0, 0], 4 * random.below(CODE_WORDS as u64) as i32),
        Opcode::Ecall | Opcode::Ebreak if often => word(Opcode::Addi, [rd, rs1, 0], address),
        Opcode::Jal => word(opcode, [rd, 0, 0], inside),
        Opcode::Beq | Opcode::Bne | Opcode::Blt | Opcode::Bge | Opcode::Bltu | Opcode::Bgeu => {
            word(opcode, [0, rs1, rs2], inside)
        }
        Opcode::Sb | Opcode::Sh | Opcode::Sw | Opcode::Sd if often => {
            // Mostly behind the code, so that it is not soon overwritten.
            let from = if random.chance(8) { 0 } else { 4 * CODE_WORDS };
            word(opcode, [0, 0, rs2], random.between(from / 8, LENGTH as i64 / 8 - 1) as i32 * 8)
        }
        Opcode::Lb | Opcode::Lbu | Opcode::Lh | Opcode::Lhu | Opcode::Lw | Opcode::Ld if often => {
            word(opcode, [rd, 0, 0], address & !7)
        }
        _ => {
            word(opcode, [rd, rs1, rs2], if random.chance(2) { address } else { random.between(-65536, 65535) as i32 })
        }
    }
}

/// Words as they come, their opcodes mostly valid.
pub fn random_words(random: &mut Random) -> Case {
    let words: Vec<u32> = (0..16)
        .map(|_| {
            let bits = random.draw() as u32;
            let unused_bits_clear = if random.chance(2) { bits & 0x7ffff } else { bits };
            if random.chance(8) {
                return bits;
            }
            unused_bits_clear & !0x7f | (random.below(50) as u32 + 1)
        })
        .collect();
    let mut case = Case::new(mode(random), image(&words, 64), random.below(40));
    strew(&mut case, random);
    case
}
