//! All words, or many: printed, and where they decode, assembled from their print.

use zkir_spec::{decode, Undecodable};

use crate::calls::Compared;
use crate::refusal::Refusal;
use crate::text::{print, OracleText, TextSubject, LONGEST_LINE};

use super::call::Call;
use super::compare::TextDifference;

/// So many words that decode go in one call.
const BATCH: usize = 4096;

/// Compares words with the oracle: those that decode in batches, each other one in a call of its own.
pub struct PrintedWords<'s> {
    subject: &'s dyn TextSubject,
    batch: Vec<u8>,
    pub decodable: u64,
    pub unknown_opcodes: u64,
    pub unused_bits: u64,
    /// The first difference, shrunk; nothing is compared after it.
    pub difference: Option<TextDifference>,
    oracle: Vec<u8>,
    printed: Vec<u8>,
    assembled: Vec<u8>,
}

impl<'s> PrintedWords<'s> {
    pub fn new(subject: &'s dyn TextSubject) -> Self {
        Self {
            subject,
            batch: Vec::with_capacity(4 * BATCH),
            decodable: 0,
            unknown_opcodes: 0,
            unused_bits: 0,
            difference: None,
            oracle: vec![0; BATCH * LONGEST_LINE],
            printed: vec![0; BATCH * LONGEST_LINE],
            assembled: vec![0; 4 * BATCH],
        }
    }

    /// False once a difference was found.
    pub fn compare(&mut self, word: u32) -> bool {
        match decode(word) {
            Ok(_) => {
                self.decodable += 1;
                self.batch.extend_from_slice(&word.to_le_bytes());
                if self.batch.len() == 4 * BATCH {
                    self.finish();
                }
            }
            Err(Undecodable::Opcode) => {
                self.unknown_opcodes += 1;
                self.refused(word, Refusal::Opcode { word });
            }
            Err(Undecodable::Operands) => {
                self.unused_bits += 1;
                self.refused(word, Refusal::Operands { word });
            }
        }
        self.difference.is_none()
    }

    /// Compares what is left of the last batch.
    pub fn finish(&mut self) -> bool {
        let words = std::mem::take(&mut self.batch);
        self.decoded(&words);
        self.batch = words;
        self.batch.clear();
        self.difference.is_none()
    }

    fn refused(&mut self, word: u32, right: Refusal) {
        const UNTOUCHED: [u8; LONGEST_LINE] = [0xa5; LONGEST_LINE];
        let mut text = UNTOUCHED;
        let words = word.to_le_bytes();
        if self.subject.print(&words, &mut text) != right.into() || text != UNTOUCHED {
            self.differ(Call::print(words.to_vec()));
        }
    }

    fn decoded(&mut self, words: &[u8]) {
        let right = print(words, &mut self.oracle);
        let length = right.length as usize;
        let told = self.subject.print(words, &mut self.printed);
        if told != right || self.printed[..length] != self.oracle[..length] {
            return self.differ(Call::print(words.to_vec()));
        }
        let told = self.subject.assemble(&self.oracle[..length], &mut self.assembled, &mut []);
        if (told.code, told.length) != (0, words.len() as u64) || self.assembled[..words.len()] != *words {
            self.differ(Call::assemble(self.oracle[..length].to_vec()));
        }
    }

    fn differ(&mut self, call: Call) {
        assert!(call.through(&OracleText) != call.through(self.subject), "the oracle does not give these words back");
        self.difference.get_or_insert_with(|| TextDifference::shrunk(call, self.subject));
    }
}
