//! Document 02, A1: an assembler and a printer, written from the language's rules as one would without proofs in mind. It
//! judges ours, and `tools/bench` measures ours beside it.

mod assemble;
mod cursor;
#[cfg(exports_text)]
mod exported;
mod instruction;
mod lines;
mod names;
mod print;
mod subject;
mod sum;

pub use assemble::assemble;
pub use instruction::NESTING;
pub use lines::{lines, Line};
pub use names::{name, named, Form};
pub use print::{print, LONGEST_LINE};
pub use subject::{subject, OracleText, TextSubject};

/// The numbers of the table that a caller lends for each label of a text.
pub const NUMBERS_PER_LABEL: usize = 3;
