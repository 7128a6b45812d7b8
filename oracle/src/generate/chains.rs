use zkir_spec::Opcode;

use crate::assemble::{b, i, image, r, EBREAK, ECALL};
use crate::case::Case;
use crate::random::Random;

use super::{mode, strew};

/// Sums and differences without a loop, each over what the last ones left, so that limbs grow until they are forced, and
/// differences borrow; now and then something that normalises.
pub fn chain(random: &mut Random) -> Case {
    let length = random.between(4, 60) as usize;
    let mut program: Vec<u32> = (0..length).map(|_| link(random)).collect();
    program.push(random.pick(&[EBREAK, ECALL]));
    let mut case = Case::new(mode(random), image(&program, 256), random.pick(&[20, 100, 100]));
    strew(&mut case, random);
    case
}

fn link(random: &mut Random) -> u32 {
    let [rd, rs1, rs2] = [0; 3].map(|_: u32| random.below(6) as u32);
    match random.below(16) {
        0..=5 => r(Opcode::Add, rd, rs1, rs2),
        6..=7 => r(Opcode::Add, rs1, rs1, rs1),
        8..=10 => r(Opcode::Sub, rd, rs1, rs2),
        11..=13 => i(Opcode::Addi, rd, rs1, random.between(-65536, 65535) as i32),
        14 => r(random.pick(&[Opcode::Mul, Opcode::Xor, Opcode::Cmov, Opcode::Sltu]), rd, rs1, rs2),
        _ => i(random.pick(&[Opcode::Andi, Opcode::Srli]), rd, rs1, random.below(64) as i32),
    }
}

/// One sum repeated more than the 1024 times after which limbs of 20 bits can reach 2^30.
pub fn looped(random: &mut Random) -> Case {
    let sum = match random.below(3) {
        0 => r(Opcode::Add, 1, 1, 2),
        1 => i(Opcode::Addi, 1, 1, random.pick(&[-1, 65535, -65536, -3])),
        _ => r(Opcode::Add, 1, 2, 1),
    };
    let program = [sum, i(Opcode::Addi, 3, 3, -1), b(Opcode::Bne, 3, 0, -8), r(Opcode::Sub, 4, 1, 2), EBREAK];
    let mut case = Case::new(mode(random), image(&program, 20), 3 * 1100);
    strew(&mut case, random);
    case.set_register(3, zkir_runtime::state::Held::Whole(random.between(900, 1100) as u64), 11);
    case
}
