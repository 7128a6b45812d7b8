use std::fmt;

use crate::told::Told;

use super::call::{Call, What};

/// What the calls met, as the oracle answers them: both sides of the language must be among it.
#[derive(Clone, Copy, Debug, Default, PartialEq, Eq)]
pub struct Met {
    pub assembled: u64,
    /// In all texts that were assembled.
    pub words: u64,
    pub bad_first_lines: u64,
    pub bad_later_lines: u64,
    pub short_labels: u64,
    pub short_words: u64,
    pub printed: u64,
    pub unknown_opcodes: u64,
    pub unused_bits: u64,
    pub odd_lengths: u64,
    pub short_texts: u64,
}

impl Met {
    pub fn count(&mut self, call: &Call, told: &Told) {
        let few_labels = || call.labels.len() < call.needs().numbers;
        let number = match (call.what, told.code) {
            (What::Assemble, 0) => {
                self.words += told.length / 4;
                &mut self.assembled
            }
            (What::Assemble, 10) if told.particular == 1 => &mut self.bad_first_lines,
            (What::Assemble, 10) => &mut self.bad_later_lines,
            (What::Assemble, _) if few_labels() => &mut self.short_labels,
            (What::Assemble, _) => &mut self.short_words,
            (What::Print, 0) => &mut self.printed,
            (What::Print, 4) => &mut self.unknown_opcodes,
            (What::Print, 5) => &mut self.unused_bits,
            (What::Print, _) if !call.given.chunks_exact(4).remainder().is_empty() => &mut self.odd_lengths,
            (What::Print, _) => &mut self.short_texts,
        };
        *number += 1;
    }
}

impl fmt::Display for Met {
    fn fmt(&self, f: &mut fmt::Formatter) -> fmt::Result {
        let Met { assembled, words, bad_first_lines, bad_later_lines, short_labels, short_words, .. } = self;
        let Met { printed, unknown_opcodes, unused_bits, odd_lengths, short_texts, .. } = self;
        write!(f, "  texts: {assembled} assembled to {words} words, refused (10) {bad_first_lines} at line 1 and ")?;
        writeln!(f, "{bad_later_lines} later, (9) {short_labels} for labels and {short_words} for words")?;
        write!(f, "  words: {printed} printed, refused (4) {unknown_opcodes}, (5) {unused_bits}, ")?;
        write!(f, "(9) {odd_lengths} for their length and {short_texts} for the text's")
    }
}
