use std::fmt;

use crate::random::Random;

use super::{Answered, Argument, Function};

/// The most tuples of corners that are tried of one function; of more, so many are drawn.
const MOST_TUPLES: usize = 20_000;

/// The smallest arguments on which a function and the oracle differ.
#[derive(Debug, PartialEq, Eq)]
pub struct Difference {
    pub name: &'static str,
    pub arguments: Vec<u64>,
    pub oracle: u64,
    pub subject: u64,
}

/// Compares a subject with the function on corners and on `count` drawn arguments; answers how many were compared.
pub fn compare(function: &Function, subject: Answered, count: u64, random: &mut Random) -> Result<u64, Difference> {
    let corners: Vec<Vec<u64>> = function.takes.iter().map(|argument| argument.corners()).collect();
    let tuples: usize = corners.iter().map(Vec::len).product();
    let mut compared = 0;
    let mut try_one = |arguments: Vec<u64>| {
        compared += 1;
        if (function.oracle)(&arguments) == subject(&arguments) {
            return Ok(());
        }
        Err(shrunk(function, subject, arguments))
    };
    for tuple in 0..tuples.min(MOST_TUPLES) {
        let mut left = if tuples > MOST_TUPLES { random.below(tuples as u64) as usize } else { tuple };
        let pick = |among: &Vec<u64>| {
            let number = among[left % among.len()];
            left /= among.len();
            number
        };
        try_one(corners.iter().map(pick).collect())?;
    }
    for _ in 0..count {
        try_one(function.takes.iter().map(|argument| argument.draw(random)).collect())?;
    }
    Ok(compared)
}

/// Lowers one argument after the other as long as the two still differ.
fn shrunk(function: &Function, subject: Answered, mut arguments: Vec<u64>) -> Difference {
    let differs = |arguments: &[u64]| (function.oracle)(arguments) != subject(arguments);
    'again: loop {
        for (place, argument) in function.takes.iter().enumerate() {
            for lower in lower_numbers(*argument, arguments[place]) {
                let mut fewer = arguments.clone();
                fewer[place] = lower;
                if differs(&fewer) {
                    arguments = fewer;
                    continue 'again;
                }
            }
        }
        let (oracle, subject) = ((function.oracle)(&arguments), subject(&arguments));
        return Difference { name: function.name, arguments, oracle, subject };
    }
}

/// Without one of its bits, then less by ever smaller powers of 2: no number takes many turns to its least.
fn lower_numbers(argument: Argument, number: u64) -> impl Iterator<Item = u64> {
    let fewer_bits = (0..64).map(move |bit| number & !(1 << bit));
    let less = (0..64).rev().filter_map(move |bit| number.checked_sub(1 << bit));
    [0, 1].into_iter().chain(fewer_bits).chain(less).filter(move |&lower| lower < number && argument.admits(lower))
}

impl fmt::Display for Difference {
    fn fmt(&self, f: &mut fmt::Formatter) -> fmt::Result {
        let arguments: Vec<String> = self.arguments.iter().map(|number| format!("{number:x}")).collect();
        writeln!(f, "the smallest arguments on which they differ, in hex: {}({})", self.name, arguments.join(", "))?;
        write!(f, "  oracle {:x}\n  subject {:x}", self.oracle, self.subject)
    }
}
