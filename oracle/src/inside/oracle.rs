use zkir_runtime::memory::Memory;
use zkir_runtime::normalize::NormalizationResult;
use zkir_runtime::range_check::RangeCheckTracker;
use zkir_runtime::state::VMState;
use zkir_spec::{Opcode, Register, Value40, ValueBound};

use crate::layout::{read_state, write_answer, write_state};
use crate::machine::{normalize_and_write, normalize_if_near_overflow, normalize_register, Machine, Mode, Onward};
use crate::numbers::instruction;
use crate::refusal::{Refusal, Stop};
use crate::tally::Tally;

use super::{Inside, Lent, Limbs, Lists};

/// The oracle as its own subject.
pub struct OracleInside;

/// The code where nothing is normalised, or no entry read.
const NOTHING: u64 = 64;

impl Inside for OracleInside {
    /// One entry of a list shows the check that the instruction asks for.
    fn execute(&self, lent: &mut Lent, check: &mut [u8], mode: u64, opcode: u8, registers: [u8; 3], imm: u64) {
        let mut lists = Lists::empty_of(1);
        on_machine(lent, &mut lists, |machine| {
            let opcode = Opcode::from_u8(opcode).expect("a number from 1 to 50");
            let done = machine.execute_given(&instruction(opcode, registers, imm), mode_of(mode));
            (stop_of(done), 0)
        });
        let needed = lists.count as u64;
        write_answer(check, [needed, lists.values[0], lists.widths[0] as u64]);
    }

    fn step(&self, lent: &mut Lent, lists: &mut Lists, mode: u64) {
        on_machine(lent, lists, |machine| (stop_of(machine.step(mode_of(mode))), 0));
    }

    fn run(&self, lent: &mut Lent, lists: &mut Lists, fuel: u64, mode: u64) {
        on_machine(lent, lists, |machine| {
            let ran = machine.run(fuel, mode_of(mode));
            (ran.stop, ran.steps)
        });
    }

    fn normalize(&self, bytes: &mut [u8], [before, after, carries]: [&mut [u8]; 3], limbs: &Limbs) {
        let mut state = read_state(bytes).expect("a well-formed state");
        let zeros = NormalizationResult::new([0; 2], [0; 2], [0; 2]);
        let (code, result) = match normalised(&mut state, limbs) {
            Ok(Some(result)) => (0, result),
            Ok(None) => (NOTHING, zeros),
            Err(refusal) => (refusal.number(), zeros),
        };
        write_state(&state, bytes);
        write_answer(before, [code, result.accumulated[0], result.accumulated[1]]);
        let [low, high] = result.normalized.map(u64::from);
        write_answer(after, [low, high, result.has_carries() as u64]);
        let [first, second] = result.carries.map(u64::from);
        write_answer(carries, [first, second, result.total_carry()]);
    }

    /// A full list refuses (8).
    fn append(&self, answer: &mut [u8], lists: &mut Lists, [value, bound, pc]: [u64; 3]) {
        on_lists(answer, lists, |tracker| {
            if tracker.is_lent() {
                tracker.defer(Value40::from_u64(value), ValueBound::computed(bound as u32), pc);
            }
            if tracker.take_found_full() {
                return Err(Refusal::ListFull { pc });
            }
            Ok(())
        });
    }

    fn empty(&self, answer: &mut [u8], lists: &mut Lists) {
        on_lists(answer, lists, |tracker| {
            tracker.empty();
            Ok(())
        });
    }

    fn read(&self, [answer, entry]: [&mut [u8]; 2], lists: &Lists, at: usize) {
        let code = if !lists.clone().tracked(|tracker| tracker.is_well_formed()) {
            Refusal::Malformed.number()
        } else if lists.count <= at {
            NOTHING
        } else {
            write_answer(entry, [lists.values[at], lists.widths[at] as u64, lists.pcs[at]]);
            0
        };
        write_answer(answer, [code, 0, 0]);
    }
}

/// Does it on the lists, and writes 0, the count, 0, or the refusal: "Lists of unequal length, or a count beyond them, are
/// malformed".
fn on_lists(answer: &mut [u8], lists: &mut Lists, act: impl FnOnce(&mut RangeCheckTracker) -> Result<(), Refusal>) {
    let done = lists.tracked(|tracker| if tracker.is_well_formed() { act(tracker) } else { Err(Refusal::Malformed) });
    write_answer(
        answer,
        match done {
            Ok(()) => [0, lists.count as u64, 0],
            Err(refusal) => [refusal.number(), 0, refusal.particular()],
        },
    );
}

fn mode_of(number: u64) -> Mode {
    Mode::from_number(number).expect("a mode")
}

fn stop_of(done: Result<Onward, Refusal>) -> Stop {
    match done {
        Ok(Onward::Next) => Stop::Fuel,
        Ok(Onward::Ebreak) => Stop::Ebreak,
        Ok(Onward::Ecall) => Stop::Ecall,
        Err(refusal) => Stop::Refused(refusal),
    }
}

/// Does it on the machine of these bytes and lists, and writes back what it leaves.
fn on_machine(lent: &mut Lent, lists: &mut Lists, act: impl FnOnce(&mut Machine) -> (Stop, u64)) {
    let state = read_state(lent.state).expect("a well-formed state");
    let mut tally = Tally::new();
    let (stop, steps, after) = lists.tracked(|tracker| {
        let lists = RangeCheckTracker::lent(tracker.values, tracker.bounds, tracker.pcs, tracker.count);
        let mut machine = Machine { state, memory: Memory::lent(lent.memory), lists, tally: &mut tally };
        let (stop, steps) = act(&mut machine);
        let after = machine.state;
        tracker.count = machine.lists.count;
        (stop, steps, after)
    });
    write_state(&after, lent.state);
    write_answer(lent.answer, [stop.code(), steps, stop.particular()]);
}

fn normalised(state: &mut VMState, limbs: &Limbs) -> Result<Option<NormalizationResult>, Refusal> {
    let register = Register(limbs.register);
    match limbs.which {
        0 => normalize_register(state, register),
        1 => normalize_if_near_overflow(state, register),
        _ => normalize_and_write(state, register, limbs.limbs).map(Some),
    }
}
