//! The 400 bytes of a state: what they are, what is refused, and that the archive judges them alike.

mod common;

use common::{any_state, Random};
use yokeglimmer::{raw, BrokenRule, MalformedBytes, Register, State, ANSWER_BYTES, STATE_BYTES};

const LIMIT: u64 = 1 << 30;

/// R1 whole, R2 accumulated, the rest fresh.
fn state() -> State {
    let mut state = State::new(0x0102030405060708);
    state.set_halted(true);
    state.set_register(1, Register::Whole(u64::MAX)).expect("well-formed");
    state.set_bound(1, 40).expect("well-formed");
    state.set_register(2, Register::Accumulated { low: 0x0a0b0c0d, high: LIMIT - 1 }).expect("well-formed");
    state.set_bound(2, 64).expect("well-formed");
    state
}

#[test]
fn the_bytes_of_a_state() {
    let mut expected = [0; 400];
    expected[..9].copy_from_slice(&[8, 7, 6, 5, 4, 3, 2, 1, 1]);
    expected[40..42].copy_from_slice(&[0, 40]);
    expected[48..56].fill(0xff);
    expected[64..66].copy_from_slice(&[1, 64]);
    expected[72..76].copy_from_slice(&[0x0d, 0x0c, 0x0b, 0x0a]);
    expected[80..84].copy_from_slice(&[0xff, 0xff, 0xff, 0x3f]);
    assert_eq!(state().to_bytes(), expected);
    assert_eq!(State::try_from(&expected[..]), Ok(state()));
    assert_eq!(State::try_from(&expected), Ok(state()));
    assert_eq!(State::try_from(expected), Ok(state()));
}

#[test]
fn bytes_of_another_length() {
    for (length, at) in [(0, 0), (399, 399), (401, 400), (408, 400)] {
        let rule = BrokenRule::Length { bytes: length };
        assert_eq!(State::try_from(&vec![0; length][..]), Err(MalformedBytes { at, rule }));
    }
}

#[test]
fn each_rule_has_its_error_with_the_byte() {
    let cases: [(usize, u8, usize, BrokenRule, &str); 13] = [
        (8, 2, 8, BrokenRule::HaltMark { byte: 2 }, "at byte 8: the halt mark is 2, and may be 0 or 1"),
        (9, 1, 9, BrokenRule::Filler { byte: 1 }, "at byte 9: the filler is 1, and must be 0"),
        (15, 7, 15, BrokenRule::Filler { byte: 7 }, "at byte 15: the filler is 7, and must be 0"),
        (16, 1, 16, BrokenRule::ZeroRegister, "at byte 16: R0 is always whole, zero, with bound 0"),
        (17, 1, 16, BrokenRule::ZeroRegister, "at byte 16: R0 is always whole, zero, with bound 0"),
        (31, 1, 16, BrokenRule::ZeroRegister, "at byte 16: R0 is always whole, zero, with bound 0"),
        (
            40,
            2,
            40,
            BrokenRule::Kind { register: 1, byte: 2 },
            "at byte 40: R1 has the kind 2, and kinds are 0 (whole) and 1 (accumulated)",
        ),
        (
            40,
            1,
            48,
            BrokenRule::Limb { register: 1, limb: u64::MAX },
            "at byte 48: R1 has a limb of 18446744073709551615, and limbs are below 2^30",
        ),
        (
            41,
            65,
            41,
            BrokenRule::Bound { register: 1, bound: 65 },
            "at byte 41: R1 has the bound 65, and bounds are 0 to 64",
        ),
        (42, 255, 42, BrokenRule::Filler { byte: 255 }, "at byte 42: the filler is 255, and must be 0"),
        (
            57,
            1,
            56,
            BrokenRule::SecondNumber { register: 1, number: 256 },
            "at byte 56: R1 is whole and has the second number 256, which must be 0",
        ),
        (
            75,
            0x40,
            72,
            BrokenRule::Limb { register: 2, limb: 0x400b0c0d },
            "at byte 72: R2 has a limb of 1074465805, and limbs are below 2^30",
        ),
        (
            84,
            1,
            80,
            BrokenRule::Limb { register: 2, limb: (1 << 32) + LIMIT - 1 },
            "at byte 80: R2 has a limb of 5368709119, and limbs are below 2^30",
        ),
    ];
    for (place, byte, at, rule, words) in cases {
        let mut bytes = state().to_bytes();
        bytes[place] = byte;
        let error = State::try_from(&bytes[..]).expect_err("malformed");
        assert_eq!(error, MalformedBytes { at, rule });
        assert_eq!(error.to_string(), words);
    }
}

/// Whether the archive takes the bytes in the deferred mode, which takes every state.
fn archive_takes(bytes: &[u8]) -> bool {
    let mut answer = [0; ANSWER_BYTES];
    raw::run(&mut bytes.to_vec(), &mut [], &mut answer, 0, 1) != 9
}

#[test]
fn the_archive_takes_exactly_the_bytes_that_are_a_state() {
    let mut met = [0; 2];
    for place in 0..STATE_BYTES {
        for byte in [0, 1, 2, 0x3f, 0x40, 0x41, 0x80, 0xff] {
            let mut bytes = state().to_bytes();
            bytes[place] = byte;
            let taken = State::try_from(&bytes[..]).is_ok();
            assert_eq!(taken, archive_takes(&bytes), "byte {place} is {byte}");
            met[usize::from(taken)] += 1;
        }
    }
    assert!(met.iter().all(|&times| times > 500), "both verdicts are met often: {met:?}");
    for length in [0, 1, 399, 401] {
        assert!(!archive_takes(&vec![0; length]), "{length} bytes");
    }
}

#[test]
fn generated_states_come_back() {
    let mut random = Random(7);
    for _ in 0..500 {
        let state = any_state(&mut random);
        let bytes = state.to_bytes();
        assert_eq!(State::try_from(&bytes[..]), Ok(state));
        assert!(archive_takes(&bytes));
    }
}
