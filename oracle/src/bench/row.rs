//! One row of the table: a program, how it is called, and the time that a subject takes for it.

use crate::assemble::image;
use crate::layout::{number, ANSWER_BYTES, STATE_BYTES};
use crate::machine::Mode;
use crate::subject::Subject;

use super::clock;
use super::workloads::{alu, copy, workloads};

const KIBI: usize = 1 << 10;
const USUAL_MEMORY: usize = 64 * KIBI;
const FUEL_STOP: u64 = 0;
const ECALL_STOP: u64 = 65;

#[derive(Clone, Copy)]
pub enum Pace {
    /// One call with all the fuel, and another after each Ecall: time per instruction.
    OneRun,
    /// Call after call with so little fuel: time per call.
    CallsOf { fuel: u64 },
}

impl Pace {
    pub fn unit(self) -> &'static str {
        match self {
            Pace::OneRun => "instruction",
            Pace::CallsOf { .. } => "call",
        }
    }
}

pub struct Row {
    pub name: String,
    pub mode: Mode,
    pub pace: Pace,
    /// How many times as long as the published Rust ours may take for an instruction. Calls have no such limit.
    pub most: Option<f64>,
    program: Vec<u32>,
    memory: usize,
}

/// What is lent to the calls of one measurement.
struct Lent {
    state: [u8; STATE_BYTES],
    memory: Vec<u8>,
    answer: [u8; ANSWER_BYTES],
}

pub fn rows() -> Vec<Row> {
    let mut rows = Vec::new();
    for (name, program, most) in workloads() {
        rows.extend(Mode::BOTH.map(|mode| Row::one_run(name.to_string(), mode, program.clone(), USUAL_MEMORY, most)));
    }
    for (size, memory) in [("4 KiB", 4 * KIBI), ("16 MiB", 16 * KIBI * KIBI)] {
        rows.push(Row::one_run(format!("memory copy, {size}"), Mode::Plain, copy(), memory, 1.0));
    }
    for fuel in [1, 10, 100] {
        rows.extend(Mode::BOTH.map(|mode| Row::calls_of(fuel, mode)));
    }
    rows
}

impl Row {
    fn one_run(name: String, mode: Mode, program: Vec<u32>, memory: usize, most: f64) -> Self {
        Self { name, mode, pace: Pace::OneRun, most: Some(most), program, memory }
    }

    fn calls_of(fuel: u64, mode: Mode) -> Self {
        let name = format!("calls of fuel {fuel}");
        Self { name, mode, pace: Pace::CallsOf { fuel }, most: None, program: alu(), memory: USUAL_MEMORY }
    }

    /// Nanoseconds of processor time per instruction or per call, from a fresh state.
    pub fn time(&self, subject: &dyn Subject, instructions: u64) -> f64 {
        let mut lent = self.fresh();
        match self.pace {
            Pace::OneRun => {
                let started = clock::nanoseconds();
                lent.run(subject, self.mode, instructions);
                (clock::nanoseconds() - started) as f64 / instructions as f64
            }
            Pace::CallsOf { fuel } => {
                let calls = (instructions / 50).max(1);
                let started = clock::nanoseconds();
                lent.call(subject, self.mode, fuel, calls);
                (clock::nanoseconds() - started) as f64 / calls as f64
            }
        }
    }

    /// Whether both leave the same after so many instructions: what is measured must be the same work.
    pub fn agree(&self, one: &dyn Subject, other: &dyn Subject, instructions: u64) -> bool {
        let [one, other] = [one, other].map(|subject| {
            let mut lent = self.fresh();
            lent.run(subject, self.mode, instructions);
            lent
        });
        one.state == other.state && one.memory == other.memory && one.answer == other.answer
    }

    fn fresh(&self) -> Lent {
        let memory = image(&self.program, self.memory);
        Lent { state: [0; STATE_BYTES], memory, answer: [0; ANSWER_BYTES] }
    }
}

impl Lent {
    fn run(&mut self, subject: &dyn Subject, mode: Mode, instructions: u64) {
        let mut left = instructions;
        while left > 0 {
            let code = subject.run(&mut self.state, &mut self.memory, &mut self.answer, left, mode as u64);
            assert!(code == FUEL_STOP || code == ECALL_STOP, "what is measured stops on fuel or at an Ecall");
            left -= number(&self.answer, 8);
        }
    }

    fn call(&mut self, subject: &dyn Subject, mode: Mode, fuel: u64, calls: u64) {
        for _ in 0..calls {
            let code = subject.run(&mut self.state, &mut self.memory, &mut self.answer, fuel, mode as u64);
            assert_eq!(code, FUEL_STOP, "what is measured stops on fuel");
        }
    }
}
