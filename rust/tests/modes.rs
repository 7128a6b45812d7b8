//! Both modes are one computer, on generated programs: that it is so on all of them is proved.

mod common;

use common::{memory, start, word, Random, WORDS};
use yokeglimmer::{run, Mode, State, Stop};

const PROGRAMS: u64 = 3_000;

/// What two runs that agree have in common.
fn read(state: &State) -> (u64, bool, [(u64, u8); 16]) {
    (state.pc(), state.is_halted(), std::array::from_fn(|n| (state.value(n), state.bound(n))))
}

#[test]
fn both_modes_agree_on_generated_programs() {
    let mut random = Random(20);
    let (mut steps, mut with_limbs, mut stops) = (0, 0, std::collections::BTreeSet::new());
    for number in 0..PROGRAMS {
        let words: Vec<u32> = (0..WORDS).map(|_| word(&mut random)).collect();
        let (mut plain, fuel) = (start(&mut random), random.below(200));
        let mut deferred = plain.clone();
        let [mut plain_memory, mut deferred_memory] = [0; 2].map(|_| memory(256, &words));
        let answer = run(&mut plain, &mut plain_memory, fuel, Mode::Plain);
        assert_eq!(run(&mut deferred, &mut deferred_memory, fuel, Mode::Deferred), answer, "program {number}");
        assert_eq!(read(&deferred), read(&plain), "program {number}");
        assert_eq!(deferred_memory, plain_memory, "program {number}");
        assert!(!plain.has_accumulated() && answer.steps <= fuel, "program {number}");
        for state in [plain, deferred.clone()] {
            assert_eq!(State::try_from(&state.to_bytes()[..]), Ok(state), "program {number} leaves a state");
        }
        steps += answer.steps;
        with_limbs += u64::from(deferred.has_accumulated());
        stops.insert(answer.stop.code());
    }
    assert!(steps > 10 * PROGRAMS && with_limbs > PROGRAMS / 2, "{steps} steps, {with_limbs} ended with limbs");
    let expected = [Stop::Fuel.code(), 1, 2, 3, 4, 5, 6, Stop::Ebreak.code(), Stop::Ecall.code()];
    assert!(expected.iter().all(|code| stops.contains(code)), "stops met: {stops:?}");
}
