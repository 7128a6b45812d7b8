//! The calls of a small share meet everything that is to be compared, and the list of vectors too.

use oracle::compare::Comparer;
use oracle::generate::{self, FAMILIES};
use oracle::host::tallied_run;
use oracle::listed;
use oracle::machine::Mode;
use oracle::random::Random;
use oracle::subject::Oracle;
use oracle::tally::Tally;
use oracle::vectors::{self, parse, Vector};
use zkir_spec::Opcode;

fn meets_everything(tally: &Tally, stops: &[u64]) {
    for mode in Mode::BOTH {
        for opcode in Opcode::ALL {
            assert!(tally.completed(opcode, mode) > 0, "{opcode:?} {mode:?}");
        }
    }
    for &code in stops {
        assert!(tally.stopped(code) > 0, "stop {code}");
    }
    assert!(tally.forced > 0 && tally.borrows > 0 && tally.settled > 0);
}

#[test]
fn generated_calls_meet_everything_and_get_far() {
    let mut comparer = Comparer::new(&Oracle);
    let mut random = Random::seeded(5);
    for _ in 0..5_000 {
        comparer.compare(&generate::any(&mut random));
    }
    meets_everything(&comparer.tally, &[0, 1, 2, 3, 4, 5, 6, 7, 9, 64, 65]);
    assert!(comparer.tally.instructions() > 50 * comparer.compared);
    assert!(comparer.inside_the_domain > comparer.compared / 2);
}

#[test]
fn every_family_is_mostly_well_formed() {
    for (name, family) in FAMILIES {
        let mut comparer = Comparer::new(&Oracle);
        let mut random = Random::seeded(6);
        (0..500).for_each(|_| assert!(comparer.compare(&family(&mut random))));
        let malformed = comparer.tally.stopped(9);
        assert!(
            malformed == 0 || name == "damaged call" && malformed < 450,
            "{name}: {malformed} of 500 are malformed"
        );
    }
}

#[test]
fn listed_runs_append_and_fill() {
    let mut tally = Tally::new();
    let mut random = Random::seeded(3);
    let full = (0..200).filter(|_| listed::generated(&mut random).through_oracle(&mut tally).after.code == 8).count();
    assert!(full > 20 && full < 180 && tally.listed > 200, "{full} full, {} listed", tally.listed);
}

#[test]
fn the_vectors_are_those_made_now() {
    let kept = include_str!("../../crates/vectors/stdin");
    assert!(kept == vectors::file(), "make the list again: cargo run --release -- vectors ../crates/vectors/stdin");
    assert_eq!(vectors::replay(kept, &Oracle).first_wrong_line, None);
}

#[test]
fn the_vectors_meet_everything() {
    let mut tally = Tally::new();
    for line in include_str!("../../crates/vectors/stdin").lines().filter(|line| !line.starts_with('#')) {
        match parse(line).expect("a line of the list") {
            Vector::Host { mut case, .. } => {
                tallied_run(&mut case.state, &mut case.memory, &mut case.answer, case.fuel, case.mode, &mut tally);
            }
            Vector::Listed { case, .. } => {
                let code = case.through_oracle(&mut tally).after.code;
                tally.count_stop(code);
            }
        }
    }
    meets_everything(&tally, &[0, 1, 2, 3, 4, 5, 6, 7, 8, 9, 64, 65]);
}

#[test]
fn a_changed_vector_is_noticed() {
    let right = "0 0 1 190 4 18 0 1 0 ffff8089 0 1 0 3 0 4 5 4000 6 ffffffffff 0";
    for (text, wrong) in [(right, false), (&right.replace("6 ffffffffff", "6 fffffffffe"), true), (&right[..20], true)]
    {
        assert_eq!(vectors::replay(text, &Oracle).first_wrong_line.is_some(), wrong, "{text}");
    }
}
