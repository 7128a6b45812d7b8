//! Calls of the assembler and of the printer, generated and enumerated, and compared with the oracle's.

mod author;
mod call;
mod commands;
mod compare;
mod damage;
mod example;
mod generate;
mod limits;
mod met;
mod sequences;
mod shrink;
mod words;

use crate::calls::Section;

pub use call::{Call, Left, Needs, What};
pub use commands::{printed, texts};
pub use compare::{TextComparer, TextDifference};
pub use example::{SMALL, WHOLE};
pub use generate::{any, decodable, program};
pub use met::Met;
pub use words::PrintedWords;

/// The enumerated calls, by what is enumerated.
pub const SECTIONS: [(&str, Section<Call>); 16] = [
    ("texts of at most four bytes", sequences::bytes),
    ("lines", sequences::lines),
    ("parts of a line", sequences::parts_of_a_line),
    ("parts of a sum", sequences::parts_of_a_sum),
    ("registers", sequences::registers),
    ("operands", limits::operands),
    ("fields", limits::fields),
    ("numbers of 64 bits", limits::numbers),
    ("depths", limits::depths),
    ("distances", limits::distances),
    ("lines that count", limits::counted_lines),
    ("many labels", limits::many_labels),
    ("one byte changed", example::changed),
    ("one byte more, less or another", example::edited),
    ("room lent", example::lent),
    ("room lent for prints", example::lent_for_prints),
];
