//! The fixed list of the oracle's answers that our own tests replay.

mod choice;
mod line;

use crate::case::Case;
use crate::listed::ListedCase;
use crate::subject::Subject;
use crate::tally::Tally;

pub use line::{parse, Vector};

/// One call of the list.
#[derive(Clone, Debug, PartialEq, Eq)]
pub enum Call {
    Host(Case),
    Listed(ListedCase),
}

/// The whole file. It depends on nothing but this code and the published text.
pub fn file() -> String {
    let mut text = header();
    for (title, calls) in choice::sections() {
        text += &format!("# {title}\n");
        calls.iter().for_each(|call| text += &line::write(call));
    }
    text
}

/// A list of generated calls, in the same lines.
pub fn generated_file(count: u64, seed: u64) -> String {
    let calls = choice::generated(count, seed);
    format!("# {count} generated calls of seed {seed}\n") + &calls.iter().map(line::write).collect::<String>()
}

fn header() -> String {
    let published = zkir_spec::PUBLISHED.iter().chain(zkir_runtime::PUBLISHED);
    let texts: Vec<String> = published.map(|(name, _, hash)| format!("{name} {hash:016x}")).collect();
    format!(
        "# Answers of the oracle, made by `cargo run --release -- vectors ../crates/vectors/stdin` in oracle/ from the \
         published {}. oracle/README.md says how a line reads.\n",
        texts.join(", ")
    )
}

/// What became of a replay: how many calls, and the number of the first line whose call left something else.
pub struct Replayed {
    pub calls: u64,
    pub first_wrong_line: Option<usize>,
}

/// Replays the host calls through the subject and the listed runs through the oracle.
pub fn replay(text: &str, subject: &dyn Subject) -> Replayed {
    let mut calls = 0;
    for (index, line) in text.lines().enumerate().filter(|(_, line)| !line.starts_with('#')) {
        calls += 1;
        let agrees = match parse(line) {
            Some(Vector::Host { case, after }) => case.through(subject) == after,
            Some(Vector::Listed { case, after }) => case.through_oracle(&mut Tally::new()) == after,
            None => false,
        };
        if !agrees {
            return Replayed { calls, first_wrong_line: Some(index + 1) };
        }
    }
    Replayed { calls, first_wrong_line: None }
}
