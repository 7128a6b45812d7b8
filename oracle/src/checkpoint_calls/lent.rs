//! What is lent: its lengths, and states.

use crate::case::Case;
use crate::checkpoint::{MOST_MEMORY, PAGE_BYTES};
use crate::generate::damage::every;
use crate::layout::STATE_BYTES;
use crate::machine::Mode;

use super::call::{needed, Call};
use super::machine::Machine;

/// Memory of each length near a page, to be written and to be read into, from an image and from none.
pub fn memory_lengths(visit: &mut dyn FnMut(Call)) {
    let image = Machine::fresh(0).image();
    let ends = (0..=MOST_MEMORY / PAGE_BYTES + 2).map(|pages| PAGE_BYTES * pages);
    for length in ends.flat_map(|end| [end.saturating_sub(1), end, end + 1, end + 8, end + PAGE_BYTES / 2]) {
        let machine = Machine { memory: vec![0; length], ..Machine::fresh(0) };
        visit(Call::write(machine));
        visit(Call::read(image.clone(), length));
        visit(Call::read(vec![], length));
    }
}

/// States of each length, to be written and to be read into.
pub fn state_lengths(visit: &mut dyn FnMut(Call)) {
    let machine = Machine::holding(1, [(0, 1)]);
    for length in (0..=STATE_BYTES + 8).chain([2 * STATE_BYTES]) {
        visit(Call::write(Machine { state: vec![0; length], ..machine.clone() }));
        let mut call = Call::read(machine.image(), PAGE_BYTES);
        call.lent.state.resize(length, 0xa5);
        visit(call);
    }
}

/// Every single damage of a state, written and in an image.
pub fn states(visit: &mut dyn FnMut(Call)) {
    every(&Case::new(Mode::Deferred, vec![], 0), &mut |case| {
        let machine = Machine { state: case.state, ..Machine::holding(1, [(0, 1)]) };
        visit(Call::read(machine.image(), PAGE_BYTES));
        visit(Call::write(machine));
    });
}

/// Room of each length for an image without a page and for one with a page; of a machine that is refused (9) too.
pub fn room(visit: &mut dyn FnMut(Call)) {
    for machine in [Machine::fresh(1), Machine::holding(1, [(1, 1)])] {
        let malformed = Machine { state: vec![0xff; STATE_BYTES], ..machine.clone() };
        for room in 0..=needed(&machine.memory) + 8 {
            for machine in [&machine, &malformed] {
                let mut call = Call::write(machine.clone());
                call.lent.image.resize(room, 0xa5);
                visit(call);
            }
        }
    }
}
