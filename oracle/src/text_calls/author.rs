//! Writes the lines of a program, mostly right ones.

use zkir_spec::Opcode;

use crate::random::Random;
use crate::text::{name, named, Form, NESTING};

/// How many spaces stand where any number may.
#[derive(Clone, Copy, Debug, PartialEq, Eq)]
pub enum Spacing {
    None,
    AsPrinted,
    Any,
}

/// A label with its address.
#[derive(Clone, Debug, PartialEq, Eq)]
pub struct Label {
    pub name: Vec<u8>,
    pub address: i64,
}

pub struct Author<'a> {
    pub random: &'a mut Random,
    pub labels: &'a [Label],
    pub spacing: Spacing,
    pub text: Vec<u8>,
    /// What is subtracted from a label's address: in a branch or jump the address of the instruction.
    origin: i64,
}

const EXTREMES: [i64; 6] = [i64::MAX, i64::MIN, i64::MAX - 1, i64::MIN + 1, 1 << 62, -(1 << 62)];

impl<'a> Author<'a> {
    pub fn new(random: &'a mut Random, labels: &'a [Label], spacing: Spacing) -> Self {
        Self { random, labels, spacing, text: Vec::new(), origin: 0 }
    }

    pub fn write(&mut self, text: impl AsRef<[u8]>) {
        self.text.extend_from_slice(text.as_ref());
    }

    /// Spaces where any number may stand, and where a print has so many.
    pub fn gap(&mut self, printed: usize) {
        let count = match self.spacing {
            Spacing::None => 0,
            Spacing::AsPrinted => printed,
            Spacing::Any if self.random.chance(2) => self.random.below(3) as usize,
            Spacing::Any => 0,
        };
        self.text.resize(self.text.len() + count, b' ');
    }

    /// A line of an instruction at this address.
    pub fn instruction(&mut self, address: i64) {
        let opcode = self.random.pick(&Opcode::ALL);
        let (_, form) = named(name(opcode)).expect("the name of an opcode is known");
        self.origin = if matches!(form, Form::Branch | Form::Jump) { address } else { 0 };
        self.gap(0);
        self.write(name(opcode));
        match form {
            Form::Alone => {}
            Form::Registers => self.registers(3),
            Form::Jump => self.registers(1),
            _ => self.registers(2),
        }
        match form {
            Form::Alone | Form::Registers => {}
            Form::Shift => self.last_operand(0, 63),
            Form::Jump => self.last_operand(-(1 << 20), (1 << 20) - 1),
            Form::Immediate | Form::Store | Form::Branch => self.last_operand(-(1 << 16), (1 << 16) - 1),
        }
        self.gap(0);
    }

    fn registers(&mut self, count: usize) {
        for place in 0..count {
            if place == 0 {
                self.write(" ");
                self.gap(0);
            } else {
                self.comma();
            }
            let register = self.random.below(16);
            self.write(format!("R{register}"));
        }
    }

    fn comma(&mut self) {
        self.gap(0);
        self.write(",");
        self.gap(1);
    }

    /// An immediate that fits from the least to the most, but for one in some hundreds.
    fn last_operand(&mut self, least: i64, most: i64) {
        self.comma();
        let target = match self.random.below(8) {
            0 => least,
            1 => most,
            2..=4 => self.random.between(least.max(-9), 9),
            _ => self.random.between(least, most),
        };
        let target = if self.random.chance(400) { self.random.pick(&[least - 1, most + 1]) } else { target };
        match self.random.below(8) {
            0 | 1 => self.number(target),
            2 => self.nested(target),
            3 | 4 if !self.labels.is_empty() => {
                let value = self.label();
                if value < least || value > most {
                    self.close((target - value) as i128);
                }
            }
            _ => {
                let sum = self.sum(4);
                self.close(target as i128 - sum);
            }
        }
    }

    /// A number in parentheses, at most as deep as may be, but for one in some tens.
    fn nested(&mut self, number: i64) {
        let depth = if self.random.chance(40) { NESTING as u64 + 1 } else { self.random.below(NESTING as u64 + 1) };
        for _ in 0..depth {
            self.write("(");
            self.gap(0);
        }
        self.number(number);
        for _ in 0..depth {
            self.gap(0);
            self.write(")");
        }
    }

    /// Adds so much to the sum that was written.
    fn close(&mut self, mut rest: i128) {
        while i64::try_from(rest).is_err() {
            let part = if rest < 0 { i64::MIN } else { i64::MAX };
            self.operator(b'+');
            self.number(part);
            rest -= part as i128;
        }
        match i64::try_from(-rest) {
            Ok(less) if self.random.chance(2) => {
                self.operator(b'-');
                self.number(less);
            }
            _ => {
                self.operator(b'+');
                self.number(rest as i64);
            }
        }
    }

    /// Answers the value, as a whole number: what is on the way to it may not fit.
    fn sum(&mut self, depth: u32) -> i128 {
        let mut total = self.term(depth);
        for _ in 0..self.random.below(3) {
            let operator = self.random.pick(b"+-");
            self.operator(operator);
            let term = self.term(depth);
            total += if operator == b'+' { term } else { -term };
        }
        total
    }

    fn term(&mut self, depth: u32) -> i128 {
        match self.random.below(8) {
            0 | 1 if depth > 0 => {
                self.write("(");
                self.gap(0);
                let value = self.sum(depth - 1);
                self.gap(0);
                self.write(")");
                value
            }
            2..=4 if !self.labels.is_empty() => self.label() as i128,
            _ => {
                let extreme = self.random.chance(100);
                let number = if extreme { self.random.pick(&EXTREMES) } else { self.random.between(-300, 300) };
                self.number(number);
                number as i128
            }
        }
    }

    fn operator(&mut self, operator: u8) {
        self.gap(1);
        self.write([operator]);
        self.gap(1);
    }

    fn label(&mut self) -> i64 {
        let place = self.random.below(self.labels.len() as u64) as usize;
        let Label { name, address } = &self.labels[place];
        self.text.extend_from_slice(name);
        address - self.origin
    }

    fn number(&mut self, number: i64) {
        if number < 0 {
            self.write("-");
        } else if self.random.chance(8) {
            self.write("+");
        }
        if self.random.chance(8) {
            self.write("00");
        }
        self.write(number.unsigned_abs().to_string());
    }
}
