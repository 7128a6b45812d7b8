//! Images that are a byte or more away from a right one.

use crate::checkpoint::PAGE_BYTES;

use super::call::Call;
use super::damage::DISTANCES;
use super::machine::Machine;

/// An image of one page, the middle one of three.
fn example() -> (Vec<u8>, usize) {
    let machine = Machine::holding(3, [(PAGE_BYTES, 1)]);
    (machine.image(), machine.memory.len())
}

/// Each byte with each of its bits changed, and with all.
pub fn changed(visit: &mut dyn FnMut(Call)) {
    let (image, memory_length) = example();
    for place in 0..image.len() {
        for bits in (0..8).map(|bit| 1 << bit).chain([0xff]) {
            let mut image = image.clone();
            image[place] ^= bits;
            visit(Call::read(image, memory_length));
        }
    }
}

/// Each beginning, the whole, and the whole with bytes behind it.
pub fn cut(visit: &mut dyn FnMut(Call)) {
    let (image, memory_length) = example();
    for length in (0..=image.len()).chain(DISTANCES.map(|by| image.len() + by as usize)) {
        let mut image = image.clone();
        image.resize(length, 0);
        visit(Call::read(image, memory_length));
    }
}

/// Each byte taken away, and one put before each.
pub fn moved(visit: &mut dyn FnMut(Call)) {
    let (image, memory_length) = example();
    for place in 0..image.len() {
        let (before, behind) = image.split_at(place);
        visit(Call::read([before, &behind[1..]].concat(), memory_length));
        visit(Call::read([before, &[0], behind].concat(), memory_length));
    }
}
