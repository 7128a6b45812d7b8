use zkir_runtime::state::Held;

use crate::assemble::{image, word};
use crate::case::Case;
use crate::corners::{self, ACCESSES};
use crate::random::Random;

use super::{mode, strew};

/// Accesses around memory's end and around 2^64, over memories of every length.
pub fn edge(random: &mut Random) -> Case {
    let length = random.between(8, 80);
    let imm = random.between(-65536, 65535) as i32;
    let program: Vec<u32> = (0..2).map(|_| word(random.pick(&ACCESSES).0, [3, 1, 2], imm)).collect();
    let address = match random.below(8) {
        0 => random.between(-16, 8),
        1 => random.draw() as i64,
        2 => random.between(0, length),
        _ => random.between(length - 9, length + 1),
    };
    let mut case = Case::new(mode(random), image(&program, length as usize), 2);
    for at in 8..length as usize {
        case.memory[at] = random.draw() as u8;
    }
    strew(&mut case, random);
    case.set_register(1, Held::Whole((address as u64).wrapping_sub(imm as u64)), corners::bound(random));
    case
}
