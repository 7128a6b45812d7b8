use zkir_spec::Opcode;

use crate::assemble::word;
use crate::case::Case;
use crate::corners::{self, IMMEDIATES};
use crate::random::Random;

use super::{mode, strew};

/// One instruction of any opcode, somewhere in a memory of random bytes, over a state of corners.
pub fn single(random: &mut Random) -> Case {
    let opcode = random.pick(&Opcode::ALL);
    let length = random.pick(&[4, 8, 12, 64, 67, 256]);
    let among = random.pick(&[4, 16]);
    let registers = [0; 3].map(|_: u32| random.below(among) as u32);
    let imm = if random.chance(2) { random.pick(&IMMEDIATES) } else { random.between(-65536, 65535) as i32 };
    let fuel = random.pick(&[0, 1, 1, 1, 2, 3]);
    let mut case = Case::new(mode(random), random.bytes(length), fuel);
    let at = random.below(length as u64 / 4) as usize * 4;
    case.memory[at..at + 4].copy_from_slice(&word(opcode, registers, imm).to_le_bytes());
    strew(&mut case, random);
    if random.chance(2) {
        aim(&mut case, registers[1], imm, random);
    }
    case.set_pc(at as u64);
    case
}

/// Lets register plus immediate point into the memory, or just beside it.
fn aim(case: &mut Case, register: u32, imm: i32, random: &mut Random) {
    let address = random.between(-9, case.memory.len() as i64 + 9);
    let base = (address - imm as i64) as u64;
    case.set_register(register, zkir_runtime::state::Held::Whole(base), corners::bound(random));
}
