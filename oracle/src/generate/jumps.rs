use zkir_runtime::state::Held;
use zkir_spec::Opcode;

use crate::assemble::{b, i, image, jal, r, EBREAK};
use crate::case::Case;
use crate::corners;
use crate::random::Random;

use super::{mode, strew};

/// A loop that calls a function by Jal or by Jalr; it returns by Jalr, sometimes through the register that is written.
pub fn calls(random: &mut Random) -> Case {
    let link = random.between(1, 15) as u32;
    let link_again = if random.chance(3) { link } else { 0 };
    let function: i32 = 24;
    let call = match random.below(3) {
        0 => jal(link, function - 4),
        1 => i(Opcode::Jalr, link, 0, function),
        _ => i(Opcode::Jalr, link, 0, function + 1), // bit 0 of a target is cleared
    };
    let program = [
        i(Opcode::Addi, 12, 12, 1),
        call,
        i(Opcode::Addi, 13, 13, -1),
        b(Opcode::Bne, 13, 0, -12),
        EBREAK,
        0,
        r(Opcode::Add, 11, 11, 12),
        i(Opcode::Jalr, link_again, link, 0),
    ];
    let mut case = Case::new(mode(random), image(&program, 64), 400);
    strew(&mut case, random);
    case.set_register(13, Held::Whole(random.between(1, 40) as u64), 6);
    case
}

/// One jump or taken branch from somewhere in the code to anywhere, with some words to go on where it lands inside.
pub fn wild(random: &mut Random) -> Case {
    let filler = i(Opcode::Addi, 3, 3, 1);
    let mut program = vec![filler; 16];
    let at = random.below(16) as usize;
    let offset = match random.below(3) {
        0 => 4 * random.between(-16, 16),
        1 => random.between(-70, 70),
        _ => random.between(-65536, 65535),
    } as i32;
    program[at] = match random.below(3) {
        0 => jal(random.below(16) as u32, offset),
        1 => i(Opcode::Jalr, random.below(3) as u32, random.below(3) as u32, offset),
        _ => b(random.pick(&[Opcode::Beq, Opcode::Bge, Opcode::Bgeu]), 5, 5, offset),
    };
    let mut case = Case::new(mode(random), image(&program, 64), random.below(30));
    strew(&mut case, random);
    let base = if random.chance(2) { random.below(70) } else { corners::value(random) };
    case.set_register(1, Held::Whole(base), corners::bound(random));
    case
}
