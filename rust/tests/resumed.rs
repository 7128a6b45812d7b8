//! A run that is broken off, kept as an image and gone on with is the unbroken run, on generated programs.
#![cfg(feature = "checkpoint")]

mod common;

use common::{any_pages, i, memory, r, start, word, Random, ADD, ADDI, EBREAK, MODES, PAGE_BYTES, SW, WORDS};
use yokeglimmer::{run, Answer, Checkpoint, Mode, Refusal, Register, State, Stop};

const PROGRAMS: u64 = 2_000;

/// The machine that another host makes of the image.
fn handed_over(machine: &Checkpoint) -> Checkpoint {
    let image = Checkpoint::write(&machine.state, &machine.memory).unwrap_or_else(|wrong| panic!("{wrong}"));
    Checkpoint::read(&image, machine.memory.len()).unwrap_or_else(|bad| panic!("{bad}"))
}

fn go_on(machine: &mut Checkpoint, fuel: u64, mode: Mode) -> Answer {
    run(&mut machine.state, &mut machine.memory, fuel, mode)
}

/// A program in its first page, and anything in the others.
fn machine(random: &mut Random) -> Checkpoint {
    let words: Vec<u32> = (0..WORDS).map(|_| word(random)).collect();
    let mut lent = memory(PAGE_BYTES, &words);
    lent.extend(any_pages(random.below(3) as usize, random));
    Checkpoint { state: start(random), memory: lent }
}

#[test]
fn a_resumed_run_is_the_unbroken_one() {
    let (mut random, mut resumed, mut with_limbs) = (Random(30), 0, 0);
    for (number, mode) in (0..PROGRAMS).flat_map(|number| MODES.map(|mode| (number, mode))) {
        let mut unbroken = machine(&mut random);
        let (mut broken, [before, behind]) = (unbroken.clone(), [12, 60].map(|most| random.below(most)));
        let whole = go_on(&mut unbroken, before + behind, mode);
        let first = go_on(&mut broken, before, mode);
        let mut other = handed_over(&broken);
        assert!(other == broken, "program {number}, {mode}: the machine comes back");
        if first.stop == Stop::Fuel {
            let second = go_on(&mut other, behind, mode);
            assert_eq!(
                (second.stop, first.steps + second.steps),
                (whole.stop, whole.steps),
                "program {number}, {mode}"
            );
            resumed += 1;
            with_limbs += u64::from(broken.state.has_accumulated());
        }
        assert!(other.state.to_bytes() == unbroken.state.to_bytes(), "program {number}, {mode}: state");
        assert!(other.memory == unbroken.memory, "program {number}, {mode}: memory");
    }
    assert!(resumed > 2_500 && with_limbs > 800, "{resumed} were resumed, {with_limbs} with limbs");
}

/// Sums in limbs, and a store into each page.
fn loop_over_pages() -> Checkpoint {
    const BNE: u32 = 42;
    let words = [
        i(ADDI, 1, 0, -1),
        i(ADDI, 4, 0, 15 * 4096),
        r(ADD, 2, 2, 1),
        i(ADDI, 3, 3, 4096),
        i(SW, 3, 4, 8),
        i(BNE, 3, 4, -12),
        EBREAK,
    ];
    Checkpoint { state: State::new(0), memory: memory(16 * PAGE_BYTES, &words) }
}

#[test]
fn broken_off_after_every_step() {
    for mode in MODES {
        let (mut unbroken, mut machine, mut steps) = (loop_over_pages(), loop_over_pages(), 0);
        let whole = go_on(&mut unbroken, 1_000, mode);
        let stop = loop {
            let answer = go_on(&mut machine, 1, mode);
            steps += answer.steps;
            machine = handed_over(&machine);
            if answer.stop != Stop::Fuel {
                break answer.stop;
            }
        };
        assert_eq!((stop, steps), (whole.stop, whole.steps), "{mode}");
        assert!(machine == unbroken, "{mode}");
        assert_eq!((whole.stop, whole.steps), (Stop::Ebreak, 63), "{mode}");
    }
}

/// Images hold limbs; what a run takes is its own rule.
#[test]
fn a_plain_run_refuses_what_was_kept_in_limbs() {
    let mut machine = loop_over_pages();
    assert_eq!(go_on(&mut machine, 10, Mode::Deferred).stop, Stop::Fuel);
    let mut other = handed_over(&machine);
    assert!(matches!(other.state.register(2), Register::Accumulated { low: 2_097_150, high: 2_097_150 }));
    assert_eq!(go_on(&mut other, 10, Mode::Plain).stop, Stop::Refused(Refusal::Malformed));
    assert!(other == machine);
}
