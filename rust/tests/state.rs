//! A state is fresh, is read, is changed, and is never malformed.

use yokeglimmer::{BrokenRule, Register, State};

const LIMIT: u64 = 1 << 30;

#[test]
fn a_fresh_state() {
    let state = State::new(0x1234_5678_9abc_def0);
    assert_eq!((state.pc(), state.is_halted(), state.has_accumulated()), (0x1234_5678_9abc_def0, false, false));
    for n in 0..16 {
        assert_eq!((state.register(n), state.value(n), state.bound(n)), (Register::Whole(0), 0, 0));
    }
    assert_eq!(State::default(), State::new(0));
}

#[test]
fn every_field_is_kept_apart_from_the_others() {
    let mut state = State::new(0);
    let held = |n: usize| match n {
        0 => Register::Whole(0),
        n if n % 2 == 0 => Register::Whole(u64::MAX - n as u64),
        n => Register::Accumulated { low: LIMIT - n as u64, high: 7 * n as u64 },
    };
    for n in (1..16).rev() {
        state.set_register(n, held(n)).expect("well-formed");
        state.set_bound(n, 64 - n as u8).expect("well-formed");
    }
    state.set_halted(true);
    state.set_pc(u64::MAX);
    assert_eq!((state.pc(), state.is_halted(), state.has_accumulated()), (u64::MAX, true, true));
    for n in 0..16 {
        let bound = if n == 0 { 0 } else { 64 - n as u8 };
        assert_eq!((state.register(n), state.bound(n)), (held(n), bound));
    }
    state.set_halted(false);
    state.set_register(1, Register::Whole(1)).expect("well-formed");
    assert_eq!((state.is_halted(), state.register(1), state.bound(1)), (false, Register::Whole(1), 63));
}

#[test]
fn the_value_of_a_register() {
    assert_eq!(Register::Whole(u64::MAX).value(), u64::MAX);
    assert_eq!(Register::Accumulated { low: 5, high: 3 }.value(), 3 * 1048576 + 5);
    // P7's limbs: normalised they are 1048575 and 1022
    assert_eq!(Register::Accumulated { low: LIMIT - 1, high: LIMIT - 1 }.value(), 1048575 + 1022 * 1048576);
}

#[test]
fn what_would_be_malformed_is_refused_and_changes_nothing() {
    let mut state = State::new(4);
    let before = state.clone();
    let limbs = |low, high| Register::Accumulated { low, high };
    assert_eq!(state.set_register(3, limbs(LIMIT, 0)), Err(BrokenRule::Limb { register: 3, limb: LIMIT }));
    assert_eq!(state.set_register(3, limbs(0, u64::MAX)), Err(BrokenRule::Limb { register: 3, limb: u64::MAX }));
    assert_eq!(state.set_bound(3, 65), Err(BrokenRule::Bound { register: 3, bound: 65 }));
    for register in [Register::Whole(1), limbs(0, 0)] {
        assert_eq!(state.set_register(0, register), Err(BrokenRule::ZeroRegister));
    }
    assert_eq!(state.set_bound(0, 1), Err(BrokenRule::ZeroRegister));
    assert_eq!(state.set_value(0, 1), Err(BrokenRule::ZeroRegister));
    assert_eq!(state, before);
}

#[test]
fn the_largest_that_is_allowed_is_taken() {
    let mut state = State::new(0);
    let largest = Register::Accumulated { low: LIMIT - 1, high: LIMIT - 1 };
    assert_eq!(state.set_register(15, largest), Ok(()));
    assert_eq!(state.set_bound(15, 64), Ok(()));
    assert_eq!((state.register(15), state.bound(15)), (largest, 64));
    assert_eq!((state.set_register(0, Register::Whole(0)), state.set_bound(0, 0)), (Ok(()), Ok(())));
}

/// What a function says as it panics.
fn panic_of<T>(act: impl FnOnce(State) -> T + std::panic::UnwindSafe) -> String {
    let panic = std::panic::catch_unwind(|| act(State::new(0))).err().expect("it panics");
    *panic.downcast::<String>().expect("a text")
}

#[test]
fn a_register_that_is_not_there_is_neither_read_nor_written() {
    let said = [
        panic_of(|state| state.register(16)),
        panic_of(|state| state.value(16)),
        panic_of(|state| state.bound(16)),
        panic_of(|mut state| state.set_register(16, Register::Whole(0))),
        panic_of(|mut state| state.set_bound(16, 0)),
        panic_of(|mut state| state.set_value(16, 0)),
    ];
    assert!(said.iter().all(|said| said == "there is no register R16, only R0 to R15"), "{said:?}");
}

#[test]
fn a_value_is_set_with_the_bound_that_it_needs() {
    for (value, bound) in [(0, 0), (1, 1), (255, 8), (256, 9), (1 << 40, 41), (u64::MAX, 64)] {
        let mut state = State::new(0);
        state.set_register(3, Register::Accumulated { low: 1, high: 1 }).expect("small limbs");
        assert_eq!(state.set_value(3, value), Ok(()));
        assert_eq!((state.register(3), state.bound(3)), (Register::Whole(value), bound));
    }
    assert_eq!(State::new(0).set_value(0, 0), Ok(()));
}

#[test]
fn a_state_is_shown_by_its_registers_that_are_not_fresh() {
    let mut state = State::new(12);
    assert_eq!(state.to_string(), "pc 12");
    state.set_halted(true);
    state.set_value(15, 1000).expect("well-formed");
    state.set_bound(2, 40).expect("well-formed");
    state.set_register(1, Register::Accumulated { low: 5, high: 3 }).expect("well-formed");
    let shown = "pc 12, halted\nR1 3145733 (limbs 5 and 3), bound 0\nR2 0, bound 40\nR15 1000, bound 10";
    assert_eq!(state.to_string(), shown);
}
