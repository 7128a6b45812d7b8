//! Makes a call that shows a difference as small as it gets: without the lines or words that it can do without, with plainer
//! lines and shorter names, without bytes, and at last with just enough lent, or with nothing.

use crate::text::{lines, Line};

use super::call::{Call, Needs, What};

/// So many bytes are tried at most: a text of a megabyte is not shrunk byte by byte.
const MOST_TRIED: usize = 1 << 28;

pub fn shrink(call: Call, differs: &dyn Fn(&Call) -> bool) -> Call {
    let mut shrinking = Shrinking { smallest: call, differs, tried: 0 };
    let mut before = usize::MAX;
    while shrinking.smallest.given.len() < before {
        before = shrinking.smallest.given.len();
        shrinking.fewer_pieces();
        if shrinking.smallest.what == What::Assemble {
            shrinking.plainer_lines();
            shrinking.shorter_names();
        }
        let given = shrinking.smallest.given.clone();
        shrinking.without(given.chunks(1).collect());
    }
    shrinking.less_lent();
    shrinking.smallest
}

struct Shrinking<'d> {
    smallest: Call,
    differs: &'d dyn Fn(&Call) -> bool,
    tried: usize,
}

fn split(text: &[u8]) -> Vec<&[u8]> {
    text.split_inclusive(|&byte| byte == b'\n').collect()
}

impl Shrinking<'_> {
    fn fewer_pieces(&mut self) {
        let given = self.smallest.given.clone();
        self.without(match self.smallest.what {
            What::Assemble => split(&given),
            What::Print => given.chunks(4).collect(),
        });
    }

    /// Takes ever fewer pieces away at a time, as long as the two still differ.
    fn without(&mut self, mut pieces: Vec<&[u8]>) {
        let mut count = pieces.len().div_ceil(2);
        while count > 0 {
            let mut at = 0;
            while at < pieces.len() && self.tried < MOST_TRIED {
                let mut fewer = pieces.clone();
                fewer.drain(at..pieces.len().min(at + count));
                if self.takes_given(fewer.concat()) {
                    pieces = fewer;
                } else {
                    at += count;
                }
            }
            count /= 2;
        }
    }

    fn plainer_lines(&mut self) {
        for place in 0..split(&self.smallest.given).len() {
            let given = self.smallest.given.clone();
            let mut lines = split(&given);
            lines[place] = b"Ecall\n";
            self.takes_given(lines.concat());
        }
    }

    fn shorter_names(&mut self) {
        let given = self.smallest.given.clone();
        for (line, name) in lines(&given).zip((b'a'..=b'z').cycle()) {
            if let Line::Definition(long) = line {
                self.takes_given(renamed(&self.smallest.given, long, name));
            }
        }
    }

    /// Whether this is shorter and they differ on it, with the same lent, or with as much more or less than it takes as
    /// before.
    fn takes_given(&mut self, given: Vec<u8>) -> bool {
        if given.len() >= self.smallest.given.len() || self.tried >= MOST_TRIED {
            return false;
        }
        let same = Call { given, ..self.smallest.clone() };
        let fitted = fitted(&same, &self.smallest);
        self.takes(same) || self.takes(fitted)
    }

    fn takes(&mut self, call: Call) -> bool {
        self.tried += call.given.len() + 1;
        let still = (self.differs)(&call);
        if still {
            self.smallest = call;
        }
        still
    }

    fn less_lent(&mut self) {
        let Needs { bytes, numbers } = self.smallest.needs();
        for output in [vec![0; bytes], vec![], vec![0; self.smallest.output.len()]] {
            if self.takes(Call { output, ..self.smallest.clone() }) {
                break;
            }
        }
        for labels in [vec![0; numbers], vec![], vec![1; numbers], vec![0; self.smallest.labels.len()]] {
            if self.takes(Call { labels, ..self.smallest.clone() }) {
                break;
            }
        }
    }
}

/// The call with as much lent beyond, or short of, what it takes as the other has of its own.
fn fitted(call: &Call, other: &Call) -> Call {
    let (needs, before) = (call.needs(), other.needs());
    let length = |now: usize, needed: usize, lent: usize| (now + lent).saturating_sub(needed);
    let mut fitted = call.clone();
    fitted.output.resize(length(needs.bytes, before.bytes, other.output.len()), 0xa5);
    fitted.labels.resize(length(needs.numbers, before.numbers, other.labels.len()), u64::MAX);
    fitted
}

/// The text with every word of a name made a letter.
fn renamed(text: &[u8], name: &[u8], letter: u8) -> Vec<u8> {
    let is_alike = |one: &u8, other: &u8| one.is_ascii_alphanumeric() == other.is_ascii_alphanumeric();
    text.chunk_by(is_alike).flat_map(|part| if part == name { vec![letter] } else { part.to_vec() }).collect()
}
