//! A state as a record: what stands in it, what is refused, and that the archive judges records alike.
#![cfg(feature = "step")]

mod common;

use common::{any_state, memory, Random, EBREAK};
use yokeglimmer::raw::{self, Lent, Pending, StepAnswer};
use yokeglimmer::{BrokenRule, Register, State};

const LIMIT: u64 = 1 << 30;

/// R1 whole, R2 accumulated, the rest fresh.
fn lent() -> Lent {
    let mut lent = Lent { pc: 0, halted: 1, kinds: [0; 16], bounds: [0; 16], values: [0; 16] };
    (lent.bounds[1], lent.values[1]) = (40, u64::MAX);
    (lent.kinds[2], lent.bounds[2], lent.values[2]) = (1, 64, LIMIT * LIMIT - LIMIT + 3);
    lent
}

#[test]
fn the_record_of_a_state() {
    let mut state = State::new(0);
    state.set_halted(true);
    state.set_register(1, Register::Whole(u64::MAX)).expect("well-formed");
    state.set_bound(1, 40).expect("well-formed");
    state.set_register(2, Register::Accumulated { low: 3, high: LIMIT - 1 }).expect("well-formed");
    state.set_bound(2, 64).expect("well-formed");
    assert_eq!(Lent::from(&state), lent());
    assert_eq!(State::try_from(&lent()), Ok(state));
}

/// A record that was damaged is refused by the conversion with that rule, and by the archive, which leaves it.
fn refuses(rule: BrokenRule, damage: impl Fn(&mut Lent)) {
    let mut damaged = lent();
    damage(&mut damaged);
    assert_eq!(State::try_from(&damaged), Err(rule));
    for mode in [0, 1] {
        let (mut record, mut bytes) = (damaged, memory(8, &[EBREAK]));
        let mut list = [Pending { value: 5, bound: 6, pc: 7 }; 2];
        let answer = raw::step(&mut record, &mut bytes, &mut list, 1, mode);
        assert_eq!(answer, StepAnswer { code: 9, particular: 0, count: 1 }, "{rule}");
        assert_eq!((record, bytes), (damaged, memory(8, &[EBREAK])), "{rule}");
        assert_eq!(list, [Pending { value: 5, bound: 6, pc: 7 }; 2], "{rule}");
    }
}

#[test]
fn damaged_records() {
    refuses(BrokenRule::HaltMark { byte: 2 }, |lent| lent.halted = 2);
    refuses(BrokenRule::HaltMark { byte: 255 }, |lent| lent.halted = 255);
    refuses(BrokenRule::Kind { register: 3, byte: 2 }, |lent| lent.kinds[3] = 2);
    refuses(BrokenRule::Kind { register: 15, byte: 255 }, |lent| lent.kinds[15] = 255);
    refuses(BrokenRule::Bound { register: 1, bound: 65 }, |lent| lent.bounds[1] = 65);
    refuses(BrokenRule::Bound { register: 15, bound: 255 }, |lent| lent.bounds[15] = 255);
    refuses(BrokenRule::ZeroRegister, |lent| lent.kinds[0] = 1);
    refuses(BrokenRule::ZeroRegister, |lent| lent.bounds[0] = 1);
    refuses(BrokenRule::ZeroRegister, |lent| lent.values[0] = 1);
    refuses(BrokenRule::Limb { register: 2, limb: LIMIT }, |lent| lent.values[2] = LIMIT * LIMIT);
    refuses(BrokenRule::Limb { register: 1, limb: u64::MAX / LIMIT }, |lent| lent.kinds[1] = 1);
}

/// Whether the archive takes the record in the deferred mode, which takes every state.
fn archive_takes(record: &Lent) -> bool {
    raw::step(&mut record.clone(), &mut memory(8, &[EBREAK]), &mut [], 0, 1).code != 9
}

#[test]
fn the_archive_takes_exactly_the_records_that_are_a_state() {
    let (mut random, mut met) = (Random(11), [0; 2]);
    for number in 0..4_000 {
        let mut record = Lent::from(&any_state(&mut random));
        let (n, byte) = (random.below(16) as usize, [0, 1, 2, 64, 65, 255][random.below(6) as usize]);
        match random.below(4) {
            0 => record.halted = byte,
            1 => record.kinds[n] = byte,
            2 => record.bounds[n] = byte,
            _ => record.values[n] = random.draw() >> random.below(8),
        }
        let taken = State::try_from(&record).is_ok();
        assert_eq!(taken, archive_takes(&record), "record {number}: {record:?}");
        met[usize::from(taken)] += 1;
    }
    assert!(met.iter().all(|&times| times > 1_000), "both verdicts are met often: {met:?}");
}

#[test]
fn generated_states_come_back() {
    let mut random = Random(13);
    for _ in 0..500 {
        let state = any_state(&mut random);
        assert_eq!(State::try_from(&Lent::from(&state)), Ok(state));
    }
}
