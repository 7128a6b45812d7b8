//! An interpreter of the same machine, written by hand from document 01 as a Rust programmer would write it for speed:
//! one state changed in place, each word decoded as it comes, no lists. It shows what safe Rust takes for the same
//! work, and is compared with the oracle as the archive is.

mod arithmetic;
mod bytes;
mod fields;
mod forms;
mod limbs;
mod memory;
mod state;
mod step;

use crate::layout::{write_answer, ANSWER_BYTES};
use crate::machine::Mode;
use crate::refusal::{Refusal, Stop};
use crate::subject::Subject;

use state::State;
use step::step;

pub struct Interpreter;

impl Subject for Interpreter {
    /// "A wrong length, mode or any state these rules forbid, its header too, gives 9. Then a 24-byte answer holds 9, 0, 0;
    /// one of another length isn't written."
    fn run(&self, state: &mut [u8], memory: &mut [u8], answer: &mut [u8], fuel: u64, mode: u64) -> u64 {
        let ran = if answer.len() == ANSWER_BYTES { run_bytes(state, memory, fuel, mode) } else { None };
        let (stop, steps) = ran.unwrap_or((Stop::Refused(Refusal::Malformed), 0));
        if answer.len() == ANSWER_BYTES {
            write_answer(answer, [stop.code(), steps, stop.particular()]);
        }
        stop.code()
    }
}

fn run_bytes(bytes: &mut [u8], memory: &mut [u8], fuel: u64, mode: u64) -> Option<(Stop, u64)> {
    let mode = Mode::from_number(mode)?;
    let mut state = State::read(bytes)?;
    let ran = match mode {
        Mode::Plain if !state.all_whole() => return None,
        Mode::Plain => run::<false>(&mut state, memory, fuel),
        Mode::Deferred => run::<true>(&mut state, memory, fuel),
    };
    state.write(bytes);
    Some(ran)
}

/// "a halted state answers Ebreak at 0 steps, before fuel is looked at." "Ebreak and Ecall count, a refused one doesn't."
/// "Ebreak keeps the pc and marks the halt; Ecall moves on by 4."
fn run<const DEFERRED: bool>(state: &mut State, memory: &mut [u8], fuel: u64) -> (Stop, u64) {
    if state.halted {
        return (Stop::Ebreak, 0);
    }
    let mut pc = state.pc;
    let mut steps = 0;
    let stop = loop {
        if steps == fuel {
            break Stop::Fuel;
        }
        match step::<DEFERRED>(state, memory, pc) {
            Ok(next) => pc = next,
            Err(stop) => break stop,
        }
        steps += 1;
    };
    match stop {
        Stop::Ecall => (pc, steps) = (pc.wrapping_add(4), steps + 1),
        Stop::Ebreak => (state.halted, steps) = (true, steps + 1),
        Stop::Fuel | Stop::Refused(_) => {}
    }
    state.pc = pc;
    (stop, steps)
}
