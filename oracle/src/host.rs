//! The host call, byte for byte as document 01 says.

use zkir_runtime::memory::Memory;
use zkir_runtime::range_check::RangeCheckTracker;

use crate::layout::{read_state, write_answer, write_state, ANSWER_BYTES};
use crate::machine::{Machine, Mode};
use crate::refusal::{Refusal, Stop};
use crate::tally::{Counting, Tally, Uncounted};

/// The oracle's `zkir_run`.
pub fn oracle_run(state: &mut [u8], memory: &mut [u8], answer: &mut [u8], fuel: u64, mode: u64) -> u64 {
    answered_run(state, memory, answer, fuel, mode, &mut Uncounted)
}

/// The same, and what it met is added to the tally.
pub fn tallied_run(
    state: &mut [u8],
    memory: &mut [u8],
    answer: &mut [u8],
    fuel: u64,
    mode: u64,
    tally: &mut Tally,
) -> u64 {
    let code = answered_run(state, memory, answer, fuel, mode, tally);
    tally.count_stop(code);
    code
}

fn answered_run(
    state: &mut [u8],
    memory: &mut [u8],
    answer: &mut [u8],
    fuel: u64,
    mode: u64,
    tally: &mut impl Counting,
) -> u64 {
    let (stop, steps) = judged_run(state, memory, answer.len(), fuel, mode, tally);
    if answer.len() == ANSWER_BYTES {
        write_answer(answer, [stop.code(), steps, stop.particular()]);
    }
    stop.code()
}

/// "A wrong length, mode or any state these rules forbid, its header too, gives 9."
fn judged_run(
    state: &mut [u8],
    memory: &mut [u8],
    answer_length: usize,
    fuel: u64,
    mode: u64,
    tally: &mut impl Counting,
) -> (Stop, u64) {
    const MALFORMED: (Stop, u64) = (Stop::Refused(Refusal::Malformed), 0);
    let (Some(mode), Some(read), ANSWER_BYTES) = (Mode::from_number(mode), read_state(state), answer_length) else {
        return MALFORMED;
    };
    let mut machine = Machine { state: read, memory: Memory::lent(memory), lists: RangeCheckTracker::none(), tally };
    let ran = machine.run(fuel, mode);
    write_state(&machine.state, state);
    (ran.stop, ran.steps)
}
