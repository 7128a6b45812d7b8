//! Single steps: what each does, what it lists, and that steps after each other are a run.
#![cfg(feature = "step")]

mod common;

use common::{i, memory, r, refusals, start, with_r1, word, Random};
use common::{ADD, ADDI, DIV, EBREAK, ECALL, MODES, MUL, WORDS};
use yokeglimmer::raw::{self, Lent};
use yokeglimmer::{run, step, Checks, Mode, Pending, Refusal, Register, State, Stepped, Stop};

const PROGRAMS: u64 = 1_000;
const NOTHING: Pending = Pending { value: 0, bound: 0, pc: 0 };

/// R1 is 2^40 - 1 with bound 40: doubled or squared it needs a check.
fn large_r1() -> State {
    let mut state = with_r1((1 << 40) - 1);
    state.set_bound(1, 40).expect("at most 64");
    state
}

#[test]
fn each_way_to_go_on_or_stop() {
    let words = [i(ADDI, 1, 0, 5), ECALL, EBREAK];
    for mode in MODES {
        let (mut state, mut lent, mut checks) = (State::new(0), memory(12, &words), Checks::none());
        assert_eq!(step(&mut state, &mut lent, mode, &mut checks), Stepped::On);
        assert_eq!((state.pc(), state.value(1), state.is_halted()), (4, 5, false));
        assert_eq!(state.has_accumulated(), mode == Mode::Deferred);
        assert_eq!(step(&mut state, &mut lent, mode, &mut checks), Stepped::Ecall);
        assert_eq!((state.pc(), state.register(1)), (8, Register::Whole(5)), "Ecall normalises");
        for _ in 0..2 {
            assert_eq!(step(&mut state, &mut lent, mode, &mut checks), Stepped::Ebreak, "the mark is ignored");
            assert_eq!((state.pc(), state.is_halted()), (8, true));
        }
        state.set_pc(0);
        assert_eq!(step(&mut state, &mut lent, mode, &mut checks), Stepped::On, "the mark is ignored");
        assert_eq!((state.pc(), state.is_halted(), lent), (4, true, memory(12, &words)));
    }
}

#[test]
fn each_refusal_changes_nothing() {
    for ((r1, pc, word, refusal), mode) in refusals().into_iter().flat_map(|case| MODES.map(|mode| (case, mode))) {
        let (mut state, mut lent, mut room) = (with_r1(r1), memory(64, &[word]), [NOTHING]);
        state.set_pc(pc);
        let before = (state.clone(), lent.clone());
        let mut checks = Checks::over(&mut room);
        assert_eq!(step(&mut state, &mut lent, mode, &mut checks), Stepped::Refused(refusal), "{refusal}");
        assert_eq!((state, lent), before, "{refusal} changes nothing");
        assert_eq!(checks.entries(), [], "{refusal} lists nothing");
    }
}

#[test]
fn a_refused_step_restores_normalised_sources() {
    let words = [r(MUL, 3, 1, 1), r(MUL, 3, 2, 1), r(DIV, 3, 2, 0)];
    let (mut state, mut lent, mut room) = (large_r1(), memory(12, &words), [NOTHING]);
    state.set_register(2, Register::Accumulated { low: 1 << 20, high: 4 }).expect("small limbs");
    state.set_bound(2, 23).expect("at most 64");
    let mut checks = Checks::over(&mut room);
    assert_eq!(step(&mut state, &mut lent, Mode::Deferred, &mut checks), Stepped::On, "the list is full now");
    for refusal in [Refusal::ListFull { pc: 4 }, Refusal::DivisorZero { pc: 8 }] {
        state.set_pc(refusal.particular());
        let before = state.clone();
        assert_eq!(step(&mut state, &mut lent, Mode::Deferred, &mut checks), Stepped::Refused(refusal));
        assert_eq!(state, before);
    }
}

#[test]
fn a_plain_step_refuses_an_accumulated_register() {
    let mut state = State::new(0);
    state.set_register(9, Register::Accumulated { low: 3, high: 4 }).expect("small limbs");
    let (before, mut lent) = (state.clone(), memory(4, &[i(ADDI, 1, 0, 1)]));
    let refused = Stepped::Refused(Refusal::Malformed);
    assert_eq!(step(&mut state, &mut lent, Mode::Plain, &mut Checks::none()), refused);
    assert_eq!(state, before);
    assert_eq!(step(&mut state, &mut lent, Mode::Deferred, &mut Checks::none()), Stepped::On);
}

#[test]
fn modes_and_counts_that_are_forbidden() {
    let before = Lent::from(&large_r1());
    for (room, count, mode) in [(2, 0, 2), (2, 0, u64::MAX), (2, 3, 0), (2, usize::MAX, 1), (0, 1, 0)] {
        let (mut record, mut lent, mut list) = (before, memory(4, &[r(ADD, 2, 1, 1)]), vec![NOTHING; room]);
        let answer = raw::step(&mut record, &mut lent, &mut list, count, mode);
        assert_eq!(answer, raw::StepAnswer { code: 9, particular: 0, count }, "count {count} of {room}, mode {mode}");
        assert_eq!((record, lent, list), (before, memory(4, &[r(ADD, 2, 1, 1)]), vec![NOTHING; room]));
    }
}

#[test]
fn which_steps_list_a_check() {
    let words = [r(ADD, 2, 1, 1), r(MUL, 3, 1, 1), i(ADDI, 4, 1, 1), r(ADD, 5, 0, 0)];
    let sum = Pending { value: (1 << 40) - 2, bound: 41, pc: 0 };
    let product = Pending { value: 1, bound: 64, pc: 4 };
    let expected: [&[Pending]; 2] = [&[sum, product], &[product]];
    for (mode, expected) in MODES.into_iter().zip(expected) {
        let (mut state, mut lent, mut room) = (large_r1(), memory(16, &words), [NOTHING; 3]);
        let mut checks = Checks::over(&mut room);
        for _ in words {
            assert_eq!(step(&mut state, &mut lent, mode, &mut checks), Stepped::On);
        }
        assert_eq!(checks.entries(), expected, "{mode}");
        assert!(room[expected.len()..].iter().all(|&unused| unused == NOTHING));
    }
}

#[test]
fn a_full_list_refuses_a_check_until_it_is_cleared() {
    for (opcode, mode) in [(ADD, Mode::Plain), (MUL, Mode::Plain), (MUL, Mode::Deferred)] {
        let (mut lent, mut room) = (memory(4, &[r(opcode, 2, 1, 1)]), [NOTHING]);
        let mut checks = Checks::over(&mut room);
        assert_eq!(step(&mut large_r1(), &mut lent, mode, &mut checks), Stepped::On);
        let listed = checks.entries().to_vec();
        let mut state = large_r1();
        let full = Refusal::ListFull { pc: 0 };
        assert_eq!(step(&mut state, &mut lent, mode, &mut checks), Stepped::Refused(full));
        assert_eq!((&state, checks.entries()), (&large_r1(), &listed[..]), "it changes nothing");
        assert_eq!(step(&mut state.clone(), &mut lent, mode, &mut Checks::none()), Stepped::On, "none is lent");
        checks.clear();
        assert_eq!(checks.entries(), []);
        assert_eq!(step(&mut state, &mut lent, mode, &mut checks), Stepped::On);
        assert_eq!(checks.entries(), &listed[..]);
    }
}

#[test]
fn a_full_list_refuses_nothing_else() {
    let (add, addi) = (r(ADD, 2, 1, 1), i(ADDI, 2, 1, 1));
    for (word, mode) in [(add, Mode::Deferred), (addi, Mode::Plain), (addi, Mode::Deferred)] {
        let (mut lent, mut room) = (memory(8, &[r(MUL, 2, 1, 1), word]), [NOTHING]);
        let (mut state, mut checks) = (large_r1(), Checks::over(&mut room));
        for _ in 0..2 {
            assert_eq!(step(&mut state, &mut lent, mode, &mut checks), Stepped::On);
        }
        assert_eq!(checks.entries(), [Pending { value: 1, bound: 64, pc: 0 }]);
    }
}

/// As many steps as there is fuel, or fewer where one stops; and the answer of a run that does so.
fn steps(state: &mut State, memory: &mut [u8], fuel: u64, mode: Mode, checks: &mut Checks) -> (Stop, u64) {
    for done in 0..fuel {
        let stepped = step(state, memory, mode, checks);
        if let Some(stop) = stepped.stop() {
            return (stop, done + u64::from(!matches!(stop, Stop::Refused(_))));
        }
    }
    (Stop::Fuel, fuel)
}

#[test]
fn steps_are_a_run() {
    let (mut random, mut done, mut listed) = (Random(17), 0, [0; 2]);
    for (number, mode) in (0..PROGRAMS).flat_map(|number| MODES.map(|mode| (number, mode))) {
        let words: Vec<u32> = (0..WORDS).map(|_| word(&mut random)).collect();
        let (before, fuel, mut room) = (start(&mut random), random.below(200), [NOTHING; 200]);
        let (mut ran, mut ran_memory) = (before.clone(), memory(256, &words));
        let answer = run(&mut ran, &mut ran_memory, fuel, mode);
        for mut checks in [Checks::none(), Checks::over(&mut room)] {
            let (mut state, mut lent) = (before.clone(), memory(256, &words));
            let told = steps(&mut state, &mut lent, fuel, mode, &mut checks);
            assert_eq!(told, (answer.stop, answer.steps), "program {number}, {mode}");
            assert_eq!((&state, &lent), (&ran, &ran_memory), "program {number}, {mode}");
            assert!(checks.entries().iter().all(|check| check.bound > 40), "program {number}, {mode}");
            listed[mode as usize] += checks.entries().len();
        }
        done += answer.steps;
    }
    assert!(done > 20 * PROGRAMS && listed[0] > 1_000 && listed[1] > 100, "{done} steps, {listed:?} checks");
}

#[test]
fn what_a_step_says() {
    let refused = Stepped::Refused(Refusal::ListFull { pc: 12 });
    assert_eq!(Stepped::On.to_string(), "completed");
    assert_eq!(Stepped::Ebreak.to_string(), "ebreak: the program stopped by itself");
    assert_eq!(Stepped::Ecall.to_string(), "ecall: the program asks its host for a service");
    assert_eq!(refused.to_string(), Refusal::ListFull { pc: 12 }.to_string());
    assert_eq!(refused.stop().map(Stop::code), Some(8));
    assert_eq!(refused.or_refused(), Err(Refusal::ListFull { pc: 12 }));
    assert_eq!(Stepped::Ecall.or_refused(), Ok(Stepped::Ecall));
}
