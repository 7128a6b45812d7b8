//! Which pages an image holds.

use crate::checkpoint::PAGE_BYTES;

use super::call::Call;
use super::machine::Machine;

/// Each set of held pages of at most eight, by their first or their last bytes: written, and read into as much memory, a page less
/// and a page more.
pub fn sets(visit: &mut dyn FnMut(Call)) {
    for pages in 0..=8 {
        for set in 0..1 << pages {
            for at in [0, PAGE_BYTES - 1] {
                let held = (0..pages).filter(|page| set >> page & 1 == 1);
                let machine = Machine::holding(pages, held.map(|page| (PAGE_BYTES * page + at, 1)));
                for lent in pages.saturating_sub(1)..=pages + 1 {
                    visit(Call::read(machine.image(), PAGE_BYTES * lent));
                }
                visit(Call::write(machine));
            }
        }
    }
}

/// Each number of pages, all or none of them held.
pub fn counts(visit: &mut dyn FnMut(Call)) {
    for pages in 0..=17 {
        for held in [0, pages] {
            let machine = Machine::holding(pages, (0..held).map(|page| (PAGE_BYTES * page + page, 0xff)));
            visit(Call::read(machine.image(), machine.memory.len()));
            visit(Call::write(machine));
        }
    }
}

/// Each place of a page the only one that is not zero, by its lowest or its highest bit, and each with another such that both
/// cancel out in a sum of bytes.
pub fn places(visit: &mut dyn FnMut(Call)) {
    for place in PAGE_BYTES..2 * PAGE_BYTES {
        for bytes in [vec![(place, 1)], vec![(place, 0x80)], vec![(place, 0x80), (place ^ 1, 0x80)]] {
            let machine = Machine::holding(2, bytes);
            visit(Call::read(machine.image(), machine.memory.len()));
            visit(Call::write(machine));
        }
    }
}
