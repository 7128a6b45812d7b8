use crate::case::Case;
use crate::layout::{put_number, record_at, ANSWER_BYTES, STATE_BYTES};
use crate::random::Random;

/// A call of another family, damaged once or twice. Some damages are none, as a changed value.
pub fn damaged(random: &mut Random) -> Case {
    let (_, family) = random.pick(&super::FAMILIES[..super::FAMILIES.len() - 1]);
    let mut case = family(random);
    for _ in 0..random.between(1, 2) {
        damage(&mut case, random);
    }
    case
}

fn damage(case: &mut Case, random: &mut Random) {
    let register = random.below(16) as usize;
    match random.below(12) {
        0 => case.mode = random.pick(&[0, 1, 2, 3, 256, 1 << 32, u64::MAX]),
        1 => case.state.resize(random.pick(&[0, 1, 8, 399, 401, 408, 800]), 0),
        2 => case.answer.resize(random.pick(&[0, 1, 8, 16, 23, 25, 32]), 0xff),
        3 => case.memory.truncate(random.below(case.memory.len() as u64 + 1) as usize),
        4 => case.fuel = random.pick(&[0, 1, 2]),
        _ if case.state.len() != STATE_BYTES => {}
        5 => case.state[random.between(8, 15) as usize] = random.pick(&[0, 1, 2, 128, 255]),
        6 => case.state[record_at(register)] = random.pick(&[0, 1, 2, 255]),
        7 => case.state[record_at(register) + 1] = random.pick(&[0, 1, 64, 65, 128, 255]),
        8 => case.state[record_at(register) + random.between(2, 7) as usize] = 1 << random.below(8),
        9 => {
            put_number(&mut case.state, record_at(register) + 8, random.pick(&[0, 1, (1 << 30) - 1, 1 << 30, u64::MAX]))
        }
        10 => put_number(
            &mut case.state,
            record_at(register) + 16,
            random.pick(&[0, 1, (1 << 30) - 1, 1 << 30, u64::MAX]),
        ),
        _ => case.state[random.below(STATE_BYTES as u64) as usize] = random.draw() as u8,
    }
}

/// Every single damage of a good call: each length, mode, and byte of the state, and each limit of a record's fields.
pub fn every(good: &Case, visit: &mut dyn FnMut(Case)) {
    let mut with = |change: &dyn Fn(&mut Case)| {
        let mut case = good.clone();
        change(&mut case);
        visit(case);
    };
    for mode in [2, 3, 255, 256, 257, 1 << 32, 1 << 63, u64::MAX] {
        with(&|case| case.mode = mode);
    }
    for length in [0, 1, 8, 16, 24, 392, 399, 401, 408] {
        with(&|case| case.state.resize(length, 0));
    }
    for length in (0..=32).filter(|&length| length != ANSWER_BYTES) {
        with(&|case| case.answer.resize(length, 0xff));
    }
    for at in 0..STATE_BYTES {
        for byte in [1, 2, 0x80, 0xff] {
            with(&|case| case.state[at] = byte);
        }
    }
    for register in 0..16 {
        let at = record_at(register);
        for kind in [0, 1] {
            for bound in [0, 64, 65] {
                for numbers in [[1, 0], [0, 1], [1 << 30, 0], [0, 1 << 30], [(1 << 30) - 1; 2]] {
                    with(&|case| {
                        case.state[at] = kind;
                        case.state[at + 1] = bound;
                        put_number(&mut case.state, at + 8, numbers[0]);
                        put_number(&mut case.state, at + 16, numbers[1]);
                    });
                }
            }
        }
    }
}
