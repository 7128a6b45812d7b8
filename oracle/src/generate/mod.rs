//! Generated calls, by what they are after. Each family is a function of the random numbers alone.

mod chains;
pub mod damage;
mod edges;
mod jumps;
mod loops;
mod single;
mod soup;
mod stops;

use crate::case::Case;
use crate::corners;
use crate::machine::Mode;
use crate::random::Random;

type Family = fn(&mut Random) -> Case;

pub const FAMILIES: [(&str, Family); 13] = [
    ("single instruction", single::single),
    ("soup of instructions", soup::soup),
    ("random words", soup::random_words),
    ("counted loop", loops::counted),
    ("copy", loops::copy),
    ("chain of sums", chains::chain),
    ("loop of sums", chains::looped),
    ("calls and returns", jumps::calls),
    ("wild jump", jumps::wild),
    ("memory's end", edges::edge),
    ("refusal", stops::refusal),
    ("stop", stops::stop),
    ("damaged call", damage::damaged),
];

/// A call of some family.
pub fn any(random: &mut Random) -> Case {
    let (_, family) = random.pick(&FAMILIES);
    family(random)
}

fn mode(random: &mut Random) -> Mode {
    random.pick(&Mode::BOTH)
}

/// Gives about half of the registers something to hold and to note.
fn strew(case: &mut Case, random: &mut Random) {
    for register in 1..16 {
        if random.chance(2) {
            let held = corners::held(random, case.is_deferred());
            case.set_register(register, held, corners::bound(random));
        }
    }
}
