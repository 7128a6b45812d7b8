use crate::text::{lines, print, Line, LONGEST_LINE, NUMBERS_PER_LABEL};
use crate::told::Told;

#[derive(Clone, Copy, Debug, PartialEq, Eq)]
pub enum What {
    /// Of a text, into words.
    Assemble,
    /// Of words, into a text.
    Print,
}

/// A call with everything lent to it; to a print no labels are.
#[derive(Clone, Debug, PartialEq, Eq)]
pub struct Call {
    pub what: What,
    pub given: Vec<u8>,
    pub output: Vec<u8>,
    pub labels: Vec<u64>,
}

/// What a call leaves: its answer and everything lent.
#[derive(Clone, Debug, PartialEq, Eq)]
pub struct Left {
    pub told: Told,
    pub output: Vec<u8>,
    pub labels: Vec<u64>,
}

/// The room that a call takes: bytes for its output, numbers for its labels.
#[derive(Clone, Copy, Debug, PartialEq, Eq)]
pub struct Needs {
    pub bytes: usize,
    pub numbers: usize,
}

impl Needs {
    /// Of a text, right or wrong.
    pub fn of(text: &[u8]) -> Self {
        let mut needs = Self { bytes: 0, numbers: 0 };
        for line in lines(text) {
            match line {
                Line::Blank => {}
                Line::Definition(_) => needs.numbers += NUMBERS_PER_LABEL,
                Line::Instruction(_) => needs.bytes += 4,
            }
        }
        needs
    }

    /// Of words, those that do not decode taking nothing.
    fn of_words(words: &[u8]) -> Self {
        let printed = |word: &[u8]| print(word, &mut [0; LONGEST_LINE]).length as usize;
        Self { bytes: words.chunks(4).map(printed).sum(), numbers: 0 }
    }
}

impl Call {
    /// Lends exactly as much as the text takes. Nothing lent is zero, so that what is left unwritten shows.
    pub fn assemble(text: Vec<u8>) -> Self {
        let Needs { bytes, numbers } = Needs::of(&text);
        Self { what: What::Assemble, given: text, output: vec![0xa5; bytes], labels: vec![u64::MAX; numbers] }
    }

    /// Lends exactly as much as the words take that decode.
    pub fn print(words: Vec<u8>) -> Self {
        let Needs { bytes, .. } = Needs::of_words(&words);
        Self { what: What::Print, given: words, output: vec![0xa5; bytes], labels: Vec::new() }
    }

    pub fn needs(&self) -> Needs {
        match self.what {
            What::Assemble => Needs::of(&self.given),
            What::Print => Needs::of_words(&self.given),
        }
    }
}
