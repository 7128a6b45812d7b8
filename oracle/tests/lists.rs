//! Pending lists: what is appended, when they are full, and what is malformed.

use oracle::machine::{Machine, Mode, Onward};
use oracle::refusal::Refusal;
use oracle::tally::Tally;
use zkir_runtime::memory::Memory;
use zkir_runtime::range_check::RangeCheckTracker;
use zkir_runtime::state::{Held, VMState};
use zkir_spec::{Instruction, Register};

const R1: Register = Register(1);
const ADD: Instruction = Instruction::Add { rd: R1, rs1: R1, rs2: R1 };
const MUL: Instruction = Instruction::Mul { rd: Register(0), rs1: R1, rs2: R1 };

/// Executes the instructions on R1 = 3 with bound 40, over lists of these lengths.
fn with_lists(
    lengths: [usize; 3],
    count: usize,
    mode: Mode,
    instructions: &[Instruction],
) -> (Result<Onward, Refusal>, VMState, Vec<[u64; 3]>) {
    let [mut values, mut bounds, mut pcs] = lengths.map(|length| vec![0; length]);
    let mut state = VMState::fresh();
    state.set_unchecked(R1, Held::Whole(3), 40);
    let lists = RangeCheckTracker::lent(&mut values, &mut bounds, &mut pcs, count);
    let mut machine = Machine { state, memory: Memory::lent(&mut []), lists, tally: &mut Tally::new() };
    let mut last = Ok(Onward::Next);
    for instruction in instructions {
        last = machine.execute_given(instruction, mode);
    }
    let (state, count) = (machine.state, machine.lists.count);
    let listed = (0..count.min(lengths[0])).map(|at| [values[at], bounds[at], pcs[at]]).collect();
    (last, state, listed)
}

#[test]
fn plain_add_and_mul_append() {
    let (last, _, listed) = with_lists([4; 3], 0, Mode::Plain, &[ADD, MUL]);
    assert_eq!((last, listed), (Ok(Onward::Next), vec![[6, 41, 0], [36, 64, 4]]));
}

#[test]
fn deferred_only_mul_appends() {
    let (last, _, listed) = with_lists([4; 3], 0, Mode::Deferred, &[ADD, MUL]);
    assert_eq!((last, listed), (Ok(Onward::Next), vec![[36, 64, 4]]));
}

#[test]
fn a_full_list_refuses_and_restores() {
    let (last, state, listed) = with_lists([1; 3], 0, Mode::Deferred, &[ADD, MUL, MUL]);
    assert_eq!((last, listed.len()), (Err(Refusal::ListFull { pc: 8 }), 1));
    assert_eq!(state.register_states.get(R1), Held::Whole(6));
    let (last, state, _) = with_lists([1; 3], 1, Mode::Deferred, &[ADD, MUL]);
    assert_eq!(last, Err(Refusal::ListFull { pc: 4 }));
    assert_eq!(state.register_states.get(R1), Held::Accumulated([6, 0]));
}

#[test]
fn an_empty_list_is_none() {
    let (last, _, listed) = with_lists([0; 3], 0, Mode::Plain, &[ADD, MUL]);
    assert_eq!((last, listed), (Ok(Onward::Next), vec![]));
}

#[test]
fn malformed_lists() {
    for (lengths, count) in [([1, 1, 2], 0), ([2, 1, 2], 0), ([0, 1, 1], 0), ([2; 3], 3), ([0; 3], 1)] {
        let (last, ..) = with_lists(lengths, count, Mode::Plain, &[MUL]);
        assert_eq!(last, Err(Refusal::Malformed), "{lengths:?} {count}");
    }
}

#[test]
fn emptied_room_is_usable_again() {
    let [mut values, mut bounds, mut pcs] = [[0], [0], [0]];
    let mut lists = RangeCheckTracker::lent(&mut values, &mut bounds, &mut pcs, 1);
    lists.empty();
    let mut state = VMState::fresh();
    state.set_unchecked(R1, Held::Whole(3), 40);
    let mut machine = Machine { state, memory: Memory::lent(&mut []), lists, tally: &mut Tally::new() };
    assert_eq!(machine.execute_given(&MUL, Mode::Plain), Ok(Onward::Next));
    assert_eq!(machine.lists.count, 1);
}
