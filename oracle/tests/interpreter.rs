//! The interpreter written by hand does what the oracle does, on enumerated and on generated calls.

use oracle::compare::Comparer;
use oracle::generate;
use oracle::interpreter::Interpreter;
use oracle::random::Random;
use oracle::sweep::{Share, LARGE, SMALL};

fn agreed(comparer: &Comparer) {
    if let Some(difference) = &comparer.difference {
        panic!("{difference}");
    }
}

#[test]
fn agrees_on_enumerated_calls() {
    let mut comparer = Comparer::new(&Interpreter);
    for ((_, section), one_in) in SMALL.into_iter().map(|s| (s, 1)).chain(LARGE.into_iter().map(|s| (s, 200))) {
        section(&mut Share::one_in(one_in, 11), &mut |case| {
            comparer.compare(&case);
        });
    }
    agreed(&comparer);
    assert!(comparer.compared > 50_000, "{} calls", comparer.compared);
}

#[test]
fn agrees_on_generated_calls() {
    let mut comparer = Comparer::new(&Interpreter);
    let mut random = Random::seeded(12);
    for _ in 0..10_000 {
        comparer.compare(&generate::any(&mut random));
    }
    agreed(&comparer);
    assert_eq!(comparer.compared, 10_000);
}
