//! The calls by which checkpoints are compared meet every answer for every reason, and what is measured is what is said.

use oracle::bench::checkpoint_rows;
use oracle::calls::Compared;
use oracle::checkpoint::{Broken, OracleCheckpoint};
use oracle::checkpoint_calls::{any, image_bytes, CheckpointComparer, Met, Side, SECTIONS};
use oracle::random::Random;

fn meets_everything(met: &Met, least: u64) {
    for Side { done, held, not_held, memory_lengths, state_lengths, .. } in [met.writes, met.reads] {
        assert!([done, held, not_held, memory_lengths, state_lengths].iter().all(|&number| number > least), "{met:?}");
    }
    assert!(met.writes.malformed_states > least && met.small_rooms > least, "{met:?}");
    for rule in Broken::ALL {
        assert!(met.met(rule) > least, "{rule:?}: {met:?}");
    }
}

#[test]
fn generated_calls_meet_everything() {
    let mut comparer = CheckpointComparer::new(&OracleCheckpoint);
    let mut random = Random::seeded(5);
    assert!((0..10_000).all(|_| comparer.compare(&any(&mut random))));
    meets_everything(&comparer.met, 25);
    let Met { writes, reads, .. } = comparer.met;
    assert!(writes.done > 2_000 && reads.done > 2_000, "{:?}", comparer.met);
}

#[test]
fn enumerated_calls_meet_everything() {
    let mut comparer = CheckpointComparer::new(&OracleCheckpoint);
    for (title, section) in SECTIONS {
        let before = comparer.compared;
        section(&mut |call| {
            comparer.compare(&call);
        });
        assert!(comparer.compared > before, "{title}");
    }
    assert!(comparer.difference.is_none());
    meets_everything(&comparer.met, 50);
}

#[test]
fn the_machines_that_are_measured_hold_what_is_said() {
    let mut held = Vec::new();
    for row in checkpoint_rows() {
        let left = row.call.through(&OracleCheckpoint);
        assert_eq!((left.told.code, left.lent.memory.len()), (0, 65_536));
        let nonzero = left.lent.memory.iter().filter(|&&byte| byte != 0).count();
        held.push((row.name, nonzero, left.lent.image.len()));
    }
    let both = |nonzero: usize, pages: usize| ["write", "read"].map(|name| (name, nonzero, image_bytes(pages)));
    assert_eq!(held, [both(65_536, 16), both(16, 16), both(0, 0), both(4_096, 1)].concat());
}
