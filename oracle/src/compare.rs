//! Compares a subject with the oracle, call by call.

use std::fmt;

use crate::case::{After, Case};
use crate::host::tallied_run;
use crate::layout::{number, STATE_BYTES};
use crate::shrink::shrink;
use crate::subject::{Oracle, Subject};
use crate::tally::Tally;

pub struct Comparer<'s> {
    subject: &'s dyn Subject,
    pub tally: Tally,
    pub compared: u64,
    /// Calls inside the domain of document 01's second paragraph, where the published text alone judges: well-formed,
    /// with no deferred difference that borrows and no accumulated register given to another form.
    pub inside_the_domain: u64,
    /// The first difference, shrunk; nothing is compared after it.
    pub difference: Option<Difference>,
}

/// A smallest call on which the two differ.
#[derive(Clone)]
pub struct Difference {
    pub case: Case,
    pub oracle: After,
    pub subject: After,
}

impl<'s> Comparer<'s> {
    pub fn new(subject: &'s dyn Subject) -> Self {
        Self { subject, tally: Tally::new(), compared: 0, inside_the_domain: 0, difference: None }
    }

    /// Compares one call; false once a difference was found.
    pub fn compare(&mut self, case: &Case) -> bool {
        if self.difference.is_some() {
            return false;
        }
        let outside_before = self.tally.outside_the_domain();
        let Case { mut state, mut memory, mut answer, fuel, mode } = case.clone();
        let code = tallied_run(&mut state, &mut memory, &mut answer, fuel, mode, &mut self.tally);
        self.compared += 1;
        self.inside_the_domain += (code != 9 && self.tally.outside_the_domain() == outside_before) as u64;
        if case.through(self.subject) == (After { code, state, memory, answer }) {
            return true;
        }
        self.difference = Some(self.shrunk(case));
        false
    }

    fn shrunk(&self, case: &Case) -> Difference {
        let subject = self.subject;
        let case = shrink(case.clone(), &|call| call.through(&Oracle) != call.through(subject));
        Difference { oracle: case.through(&Oracle), subject: case.through(subject), case }
    }
}

impl fmt::Display for Difference {
    fn fmt(&self, f: &mut fmt::Formatter) -> fmt::Result {
        let Case { state, memory, answer, fuel, mode } = &self.case;
        writeln!(f, "the smallest call on which they differ, in hex:")?;
        writeln!(f, "  mode {mode:x} fuel {fuel:x} answer {} bytes", answer.len())?;
        writeln!(f, "  memory {:x} bytes: {}", memory.len(), hex(memory))?;
        write!(f, "{}", lines("  state", state))?;
        for (who, after) in [("oracle", &self.oracle), ("subject", &self.subject)] {
            writeln!(f, "{who}: code {:x} answer {}", after.code, hex(&after.answer))?;
        }
        if self.oracle.state != self.subject.state {
            write!(
                f,
                "{}{}",
                lines("oracle leaves", &self.oracle.state),
                lines("subject leaves", &self.subject.state)
            )?;
        }
        if self.oracle.memory != self.subject.memory {
            writeln!(f, "oracle leaves memory {}", hex(&self.oracle.memory))?;
            writeln!(f, "subject leaves memory {}", hex(&self.subject.memory))?;
        }
        Ok(())
    }
}

pub(crate) fn hex(bytes: &[u8]) -> String {
    bytes.iter().map(|byte| format!("{byte:02x} ")).collect::<String>().trim_end().to_string()
}

/// The nonzero 8-byte numbers of a state, each with its place.
pub(crate) fn lines(name: &str, state: &[u8]) -> String {
    if state.len() != STATE_BYTES {
        return format!("{name} {:x} bytes: {}\n", state.len(), hex(state));
    }
    let mut text = String::new();
    for at in (0..STATE_BYTES).step_by(8).filter(|&at| number(state, at) != 0) {
        let place = match at {
            0 => "pc".to_string(),
            8 => "mark".to_string(),
            _ => format!("R{} {}", (at - 16) / 24, ["kind and bound", "low or whole", "high"][(at - 16) % 24 / 8]),
        };
        text += &format!("{name} {place}: {:016x}\n", number(state, at));
    }
    text
}
