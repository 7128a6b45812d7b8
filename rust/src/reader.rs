//! What is wrong with a line: it is read from left to right until the first mistake. Which line is bad the archive decides.

use crate::forms::Form;
use crate::lines::{lines, Labels};
use crate::mistake::Mistake;

/// How deep parentheses nest.
const DEPTH: usize = 16;

/// A mistake, and its place in the line, in bytes from 0.
pub(crate) struct Wrong {
    pub mistake: Mistake,
    pub at: usize,
}

/// Of a line, counted from 1; nothing where it is right or not there.
pub(crate) fn what_is_wrong(text: &[u8], number: usize) -> Option<Wrong> {
    let line = lines(text).nth(number.checked_sub(1)?)?;
    Reader { line, at: 0, number, labels: &Labels::of(text, number), base: 0 }.line().err()
}

fn wrong<T>(mistake: Mistake, at: usize) -> Result<T, Wrong> {
    Err(Wrong { mistake, at })
}

/// A line, how far it is read, and what a label means in it.
struct Reader<'a> {
    line: &'a [u8],
    at: usize,
    number: usize,
    labels: &'a Labels<'a>,
    /// The instructions from which a label is counted.
    base: usize,
}

impl<'a> Reader<'a> {
    /// The whole line.
    fn line(&mut self) -> Result<(), Wrong> {
        if let Some(at) = self.line.iter().position(|byte| !is_of_the_language(byte)) {
            return wrong(Mistake::ForeignByte { byte: self.line[at] }, at);
        }
        let start = self.skip();
        match self.byte() {
            None => return Ok(()),
            Some(byte) if !byte.is_ascii_alphabetic() => return wrong(Mistake::NoName, start),
            Some(_) => (),
        }
        let name = self.run();
        let behind = self.at;
        self.skip();
        if self.byte() == Some(b':') {
            return self.definition(name, start);
        }
        self.at = behind;
        match Form::of(name) {
            Some(form) => self.operands(form),
            None => wrong(Mistake::NoInstruction, start),
        }
    }

    /// From a label's colon on.
    fn definition(&mut self, name: &[u8], start: usize) -> Result<(), Wrong> {
        self.at += 1;
        let behind = self.skip();
        if self.byte().is_some() {
            return wrong(Mistake::NotAlone, behind);
        }
        match self.labels.defined.get(name) {
            Some(first) if first.line < self.number => wrong(Mistake::DefinedAgain, start),
            _ => Ok(()),
        }
    }

    /// From behind an instruction's name on.
    fn operands(&mut self, form: Form) -> Result<(), Wrong> {
        for operand in 0..form.registers() {
            if operand > 0 {
                self.comma()?;
            }
            self.register()?;
        }
        if !form.has_number() {
            return self.end();
        }
        self.comma()?;
        self.base = if form.is_jump() { self.labels.before } else { 0 };
        let start = self.operand()?;
        let value = self.sum(DEPTH)?;
        self.end()?;
        form.check(value).or_else(|mistake| wrong(mistake, start))
    }

    /// Where an operand begins.
    fn operand(&mut self) -> Result<usize, Wrong> {
        let at = self.skip();
        match self.byte() {
            Some(_) => Ok(at),
            None => wrong(Mistake::NoOperand, at),
        }
    }

    fn register(&mut self) -> Result<(), Wrong> {
        let start = self.operand()?;
        match self.run() {
            [b'R', b'0'..=b'9'] | [b'R', b'1', b'0'..=b'5'] => Ok(()),
            _ => wrong(Mistake::NoRegister, start),
        }
    }

    fn comma(&mut self) -> Result<(), Wrong> {
        let at = self.operand()?;
        if self.byte() != Some(b',') {
            return wrong(Mistake::NoComma, at);
        }
        self.at += 1;
        Ok(())
    }

    fn end(&mut self) -> Result<(), Wrong> {
        let at = self.skip();
        match self.byte() {
            None => Ok(()),
            Some(_) => wrong(Mistake::TooMuch, at),
        }
    }

    /// Terms with + and - between, from the left, and the spaces behind.
    fn sum(&mut self, depth: usize) -> Result<i64, Wrong> {
        let mut value = self.term(depth)?;
        loop {
            let at = self.skip();
            let join = match self.byte() {
                Some(b'+') => i64::checked_add,
                Some(b'-') => i64::checked_sub,
                _ => return Ok(value),
            };
            self.at += 1;
            self.skip();
            value = join(value, self.term(depth)?).ok_or(Wrong { mistake: Mistake::LargeSum, at })?;
        }
    }

    fn term(&mut self, depth: usize) -> Result<i64, Wrong> {
        match self.byte() {
            Some(b'(') => self.group(depth),
            Some(b'+' | b'-' | b'0'..=b'9') => self.number(),
            Some(byte) if byte.is_ascii_alphabetic() => self.label(),
            _ => wrong(Mistake::NoTerm, self.at),
        }
    }

    fn group(&mut self, depth: usize) -> Result<i64, Wrong> {
        if depth == 0 {
            return wrong(Mistake::TooDeep, self.at);
        }
        self.at += 1;
        self.skip();
        let value = self.sum(depth - 1)?;
        if self.byte() != Some(b')') {
            return wrong(Mistake::NotClosed, self.at);
        }
        self.at += 1;
        Ok(value)
    }

    fn number(&mut self) -> Result<i64, Wrong> {
        let start = self.at;
        let sign = self.pass(|byte| matches!(byte, b'+' | b'-'), 1);
        let digits = self.pass(u8::is_ascii_digit, usize::MAX);
        if digits.is_empty() {
            return wrong(Mistake::LoneSign, start);
        }
        let magnitude = digits.iter().try_fold(0_i128, |value, digit| {
            Some(value * 10 + i128::from(digit - b'0')).filter(|&value| value <= 1 << 63)
        });
        let value = magnitude.map(|value| if sign == b"-" { -value } else { value });
        match value.and_then(|value| i64::try_from(value).ok()) {
            Some(value) => Ok(value),
            None => wrong(Mistake::LargeNumber, start),
        }
    }

    fn label(&mut self) -> Result<i64, Wrong> {
        let start = self.at;
        match self.labels.defined.get(self.run()) {
            Some(first) => Ok(4 * (first.index as i64 - self.base as i64)),
            None => wrong(Mistake::UnknownLabel, start),
        }
    }

    /// Passes over letters and digits, and gives them.
    fn run(&mut self) -> &'a [u8] {
        self.pass(u8::is_ascii_alphanumeric, usize::MAX)
    }

    /// Passes over spaces, and gives the place behind them.
    fn skip(&mut self) -> usize {
        self.pass(|&byte| byte == b' ', usize::MAX);
        self.at
    }

    fn pass(&mut self, is_one: impl Fn(&u8) -> bool, most: usize) -> &'a [u8] {
        let left = &self.line[self.at..];
        let length = left.iter().take(most).take_while(|byte| is_one(byte)).count();
        self.at += length;
        &left[..length]
    }

    fn byte(&self) -> Option<u8> {
        self.line.get(self.at).copied()
    }
}

fn is_of_the_language(byte: &u8) -> bool {
    byte.is_ascii_alphanumeric() || b" +-(),:".contains(byte)
}
