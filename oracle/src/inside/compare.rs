use std::fmt;

use crate::compare::{hex, lines};
use crate::shrink::shrink;

use super::{Call, Inside, Left, Lists, OracleInside, What};

/// Compares the functions of a subject with the oracle's, call by call.
pub struct InsideComparer<'s> {
    subject: &'s dyn Inside,
    pub compared: u64,
    /// Calls by the code of their answer.
    pub codes: [u64; 66],
    pub appended: u64,
    /// The first difference, shrunk; nothing is compared after it.
    pub difference: Option<Difference>,
}

/// A smallest call on which the two differ.
pub struct Difference {
    pub call: Call,
    pub oracle: Left,
    pub subject: Left,
}

impl<'s> InsideComparer<'s> {
    pub fn new(subject: &'s dyn Inside) -> Self {
        Self { subject, compared: 0, codes: [0; 66], appended: 0, difference: None }
    }

    /// Compares one call; false once a difference was found.
    pub fn compare(&mut self, call: &Call) -> bool {
        if self.difference.is_some() {
            return false;
        }
        let right = call.through(&OracleInside);
        self.compared += 1;
        self.appended += right.lists.count.saturating_sub(call.lists.count) as u64;
        self.codes[right.code() as usize] += 1;
        if call.through(self.subject) == right {
            return true;
        }
        let call = shrunk(call.clone(), &|call| {
            call.is_answerable() && call.through(&OracleInside) != call.through(self.subject)
        });
        let (oracle, subject) = (call.through(&OracleInside), call.through(self.subject));
        self.difference = Some(Difference { call, oracle, subject });
        false
    }
}

/// The state and the memory first, then what is asked and the lists, until nothing gets smaller.
fn shrunk(call: Call, differs: &dyn Fn(&Call) -> bool) -> Call {
    let case = shrink(call.case.clone(), &|case| differs(&Call { case: case.clone(), ..call.clone() }));
    let mut smallest = Call { case, ..call };
    while let Some(smaller) = smaller_calls(&smallest).into_iter().find(differs) {
        smallest = smaller;
    }
    smallest
}

fn smaller_calls(call: &Call) -> Vec<Call> {
    let with_lists = |lists: Lists| Call { lists, ..call.clone() };
    let lists = smaller_lists(&call.lists).into_iter().map(with_lists);
    let what = smaller_questions(&call.what).into_iter().map(|what| Call { what, ..call.clone() });
    lists.chain(what).collect()
}

fn smaller_lists(lists: &Lists) -> Vec<Lists> {
    let mut all = Vec::new();
    let mut with = |change: &dyn Fn(&mut Lists)| {
        let mut smaller = lists.clone();
        change(&mut smaller);
        if smaller != *lists {
            all.push(smaller);
        }
    };
    with(&|lists| *lists = Lists::empty_of(0));
    with(&|lists| {
        lists.values.pop();
        lists.widths.pop();
        lists.pcs.pop();
        lists.count = lists.count.saturating_sub(1);
    });
    with(&|lists| lists.count = lists.count.saturating_sub(1));
    with(&|lists| lists.values.fill(0));
    with(&|lists| lists.widths.fill(0));
    with(&|lists| lists.pcs.fill(0));
    all
}

fn smaller_questions(what: &What) -> Vec<What> {
    let fewer =
        |number: u64| [0, number >> 1, number & number.wrapping_sub(1)].into_iter().filter(move |&n| n < number);
    match *what {
        What::Execute { opcode, registers, imm } => {
            let mut all: Vec<What> = fewer(imm).map(|imm| What::Execute { opcode, registers, imm }).collect();
            for place in 0..3 {
                for number in fewer(registers[place] as u64) {
                    let mut registers = registers;
                    registers[place] = number as u8;
                    all.push(What::Execute { opcode, registers, imm });
                }
            }
            all
        }
        What::Append(entry) => {
            let lower = |place: usize| fewer(entry[place]).map(move |number| (place, number));
            let lowered = (0..3).flat_map(lower).map(|(place, number)| {
                let mut entry = entry;
                entry[place] = number;
                What::Append(entry)
            });
            lowered.collect()
        }
        What::Normalize(limbs) => {
            let lower = |place: usize| fewer(limbs.limbs[place]).map(move |number| (place, number));
            let lowered = (0..2).flat_map(lower).map(|(place, number)| {
                let mut limbs = limbs;
                limbs.limbs[place] = number;
                What::Normalize(limbs)
            });
            lowered.collect()
        }
        What::Step | What::Run | What::Empty | What::Read(_) => Vec::new(),
    }
}

impl fmt::Display for Difference {
    fn fmt(&self, f: &mut fmt::Formatter) -> fmt::Result {
        let Call { what, case, lists } = &self.call;
        writeln!(f, "the smallest call on which they differ, in hex:")?;
        writeln!(f, "  {what:x?} mode {:x} fuel {:x}", case.mode, case.fuel)?;
        writeln!(f, "  memory {:x} bytes: {}", case.memory.len(), hex(&case.memory))?;
        write!(f, "{}", lines("  state", &case.state))?;
        writeln!(f, "  {lists:x?}")?;
        for (who, left) in [("oracle", &self.oracle), ("subject", &self.subject)] {
            for answer in &left.answers {
                writeln!(f, "{who} answers {}", hex(answer))?;
            }
            write!(f, "{}", lines(&format!("{who} leaves"), &left.state))?;
            writeln!(f, "{who} leaves {:x?}", left.lists)?;
            writeln!(f, "{who} leaves memory {}", hex(&left.memory))?;
        }
        Ok(())
    }
}
