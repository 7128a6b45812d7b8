//! Both modes agree: what document 01 makes of a run from whole registers does not depend on the mode, but for how
//! registers are held. The stand-ins would be wrong if it did.

use oracle::case::{After, Case};
use oracle::generate;
use oracle::layout::read_state;
use oracle::machine::Mode;
use oracle::random::Random;
use oracle::subject::Oracle;
use zkir_spec::Register;

/// The pc, the mark, and value and note of each register.
fn seen(after: &After) -> (u64, bool, Vec<(u64, u32)>) {
    let state = read_state(&after.state).expect("a run leaves a well-formed state");
    let registers = (0..16).map(Register);
    let values =
        registers.map(|register| (state.register_states.get(register).value(), state.read_bound(register).max_bits));
    (state.pc, state.halted, values.collect())
}

#[test]
fn plain_and_deferred_runs_agree() {
    let mut random = Random::seeded(9);
    let mut compared = 0;
    while compared < 2_000 {
        let case = Case { mode: Mode::Plain as u64, ..generate::any(&mut random) };
        let plain = case.through(&Oracle);
        if plain.code == 9 {
            continue;
        }
        let deferred = Case { mode: Mode::Deferred as u64, ..case }.through(&Oracle);
        assert_eq!((plain.code, &plain.answer, &plain.memory), (deferred.code, &deferred.answer, &deferred.memory));
        assert_eq!(seen(&plain), seen(&deferred));
        compared += 1;
    }
}
