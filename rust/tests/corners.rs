//! Document 01's cases, through the safe interface.

mod common;

use common::{i, j, memory, r, refusals, with_r1, ADD, ADDI, DIV, EBREAK, ECALL, JAL, LW, MODES, SW};
use yokeglimmer::{Mode, Refusal, Register, State, Stop};

fn run(state: &mut State, memory: &mut [u8], fuel: u64, mode: Mode) -> (Stop, u64) {
    let answer = yokeglimmer::run(state, memory, fuel, mode);
    (answer.stop, answer.steps)
}

fn answer(stop: Stop, steps: u64) -> (Stop, u64) {
    (stop, steps)
}

#[test]
fn the_example_program() {
    let program = [0x89, 0x80, 0xff, 0xff, 0x01, 0x89, 0x00, 0x00, 0x32, 0x00, 0x00, 0x00];
    for mode in MODES {
        let mut lent = program;
        let mut state = State::new(0);
        assert_eq!(run(&mut state, &mut lent, 1_000_000, mode), answer(Stop::Ebreak, 3));
        assert_eq!((state.pc(), state.is_halted(), lent), (8, true, program));
        let values: [u64; 16] = std::array::from_fn(|n| state.value(n));
        assert_eq!(values, [0, 1099511627775, 1099511627774, 0, 0, 0, 0, 0, 0, 0, 0, 0, 0, 0, 0, 0]);
        assert_eq!((state.bound(1), state.bound(2), state.bound(3)), (64, 64, 0));
        assert_eq!(state.has_accumulated(), mode == Mode::Deferred);
    }
}

#[test]
fn each_refusal_of_a_run() {
    for ((r1, pc, word, refusal), mode) in refusals().into_iter().flat_map(|case| MODES.map(|mode| (case, mode))) {
        let (mut state, mut lent) = (with_r1(r1), memory(64, &[word]));
        state.set_pc(pc);
        let before = (state.clone(), lent.clone());
        assert_eq!(run(&mut state, &mut lent, 10, mode), answer(Stop::Refused(refusal), 0), "{refusal}");
        assert_eq!((state, lent), before, "{refusal} changes nothing");
    }
}

#[test]
fn a_refusal_after_completed_steps_counts_those() {
    let words = [i(ADDI, 1, 0, 7), r(ADD, 2, 1, 1), r(DIV, 3, 2, 4)];
    for mode in MODES {
        let mut state = State::new(0);
        let refusal = Refusal::DivisorZero { pc: 8 };
        assert_eq!(run(&mut state, &mut memory(64, &words), 10, mode), answer(Stop::Refused(refusal), 2));
        assert_eq!((state.pc(), state.value(2), state.value(3)), (8, 14, 0));
    }
}

#[test]
fn a_load_reaches_to_the_end_of_memory_and_no_further() {
    for mode in MODES {
        let mut lent = memory(64, &[i(LW, 2, 1, 0), EBREAK]);
        lent[60..].copy_from_slice(&[0x78, 0x56, 0x34, 0xf2]);
        let mut state = with_r1(60);
        assert_eq!(run(&mut state, &mut lent, 10, mode), answer(Stop::Ebreak, 2));
        assert_eq!((state.register(2), state.bound(2)), (Register::Whole(0xf2345678), 32));
    }
}

#[test]
fn a_store_is_seen_in_the_lent_memory() {
    for mode in MODES {
        let words = [i(ADDI, 3, 0, -2), i(SW, 1, 3, 4), EBREAK];
        let mut lent = memory(64, &words);
        assert_eq!(run(&mut with_r1(32), &mut lent, 10, mode), answer(Stop::Ebreak, 3));
        let mut expected = memory(64, &words);
        expected[36..40].copy_from_slice(&[0xfe, 0xff, 0xff, 0xff]);
        assert_eq!(lent, expected);
    }
}

#[test]
fn memory_too_short_for_a_word() {
    for (length, mode) in [0, 1, 3].into_iter().flat_map(|length| MODES.map(|mode| (length, mode))) {
        let stop = Stop::Refused(Refusal::PcBeyond { pc: 0 });
        assert_eq!(run(&mut State::new(0), &mut vec![EBREAK as u8; length], 10, mode), answer(stop, 0));
    }
}

#[test]
fn fuel() {
    let forever = [j(JAL, 0, 0)];
    for mode in MODES {
        let mut state = State::new(0);
        assert_eq!(run(&mut state, &mut memory(4, &forever), 12345, mode), answer(Stop::Fuel, 12345));
        assert_eq!(state, State::new(0));
        assert_eq!(run(&mut State::new(0), &mut memory(4, &[EBREAK]), 0, mode), answer(Stop::Fuel, 0));
        assert_eq!(run(&mut State::new(3), &mut [], 0, mode), answer(Stop::Fuel, 0), "no step tests the pc");
        assert_eq!(run(&mut State::new(0), &mut memory(4, &[EBREAK]), u64::MAX, mode), answer(Stop::Ebreak, 1));
    }
}

#[test]
fn a_halted_state_answers_ebreak_before_fuel() {
    for (fuel, mode) in [0, 10].into_iter().flat_map(|fuel| MODES.map(|mode| (fuel, mode))) {
        let mut state = State::new(3);
        state.set_halted(true);
        let before = state.clone();
        assert_eq!(run(&mut state, &mut [], fuel, mode), answer(Stop::Ebreak, 0));
        assert_eq!(state, before);
    }
}

#[test]
fn ecall_moves_on_and_the_run_can_go_on() {
    for mode in MODES {
        let mut lent = memory(16, &[i(ADDI, 1, 0, 5), ECALL, i(ADDI, 1, 1, 1), EBREAK]);
        let mut state = State::new(0);
        assert_eq!(run(&mut state, &mut lent, 10, mode), answer(Stop::Ecall, 2));
        assert_eq!((state.pc(), state.register(1)), (8, Register::Whole(5)), "Ecall normalises");
        assert_eq!(run(&mut state, &mut lent, 10, mode), answer(Stop::Ebreak, 2));
        assert_eq!((state.pc(), state.value(1)), (12, 6));
    }
}

#[test]
fn a_plain_run_refuses_an_accumulated_register() {
    let mut state = State::new(0);
    state.set_register(9, Register::Accumulated { low: 3, high: 4 }).expect("small limbs");
    let (before, mut lent) = (state.clone(), memory(8, &[i(ADDI, 1, 9, 1), EBREAK]));
    for fuel in [0, 10] {
        let stop = Stop::Refused(Refusal::Malformed);
        assert_eq!(run(&mut state, &mut lent, fuel, Mode::Plain), answer(stop, 0));
        assert_eq!(state, before);
    }
    assert_eq!(run(&mut state, &mut lent, 10, Mode::Deferred), answer(Stop::Ebreak, 2));
    assert_eq!(state.register(1), Register::Accumulated { low: 4, high: 4 });
}
