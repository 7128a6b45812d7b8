//! Generated calls.

use crate::checkpoint::{MOST_MEMORY, PAGE_BYTES};
use crate::generate::damage::damaged;
use crate::layout::STATE_BYTES;
use crate::random::Random;

use super::call::{needed, Call, Lent, What};
use super::damage::{damage, edit};
use super::machine::Machine;
use super::parts::Parts;

/// A call of either kind; of the images to be read more than half are damaged.
pub fn any(random: &mut Random) -> Call {
    let machine = Machine::any(random);
    let mut call = match random.below(8) {
        0..=2 => writing(machine, random),
        3 | 4 => reading(machine.image(), machine.pages(), random),
        _ => reading(damaged_image(&machine, random), machine.pages(), random),
    };
    if random.chance(12) {
        lend_another_length(&mut call.lent, random);
    }
    call
}

fn writing(mut machine: Machine, random: &mut Random) -> Call {
    if random.chance(8) {
        machine.state = damaged(random).state;
    }
    let Machine { state, memory } = machine;
    let room = random.near(needed(&memory), PAGE_BYTES);
    Call { what: What::Write, lent: Lent { state, memory, image: vec![random.draw() as u8; room] } }
}

/// An image of a machine with so many pages, mostly into memory of as many.
fn reading(image: Vec<u8>, pages: usize, random: &mut Random) -> Call {
    let pages = if random.chance(6) { random.below(17) as usize } else { pages };
    let [state, memory] = [STATE_BYTES, PAGE_BYTES * pages].map(|length| vec![random.draw() as u8; length]);
    Call { what: What::Read, lent: Lent { state, memory, image } }
}

fn damaged_image(machine: &Machine, random: &mut Random) -> Vec<u8> {
    let mut parts = Parts::of(machine);
    let by_parts = random.chance(2);
    if by_parts {
        (0..random.between(1, 2)).for_each(|_| damage(&mut parts, random));
    }
    let mut image = parts.image();
    if !by_parts || random.chance(8) {
        (0..random.between(1, 3)).for_each(|_| edit(&mut image, random));
    }
    image
}

fn lend_another_length(lent: &mut Lent, random: &mut Random) {
    let byte = random.draw() as u8;
    if random.chance(3) {
        lent.state.resize(random.pick(&[0, 1, 24, 399, 401, 408, 800]), byte);
        return;
    }
    let near = |length: usize, random: &mut Random| (length + random.below(3) as usize).saturating_sub(1);
    let length = match random.below(4) {
        0 => random.below(MOST_MEMORY as u64 + 2) as usize,
        1 => near(MOST_MEMORY + PAGE_BYTES * random.below(3) as usize, random),
        2 => near(PAGE_BYTES * random.below(17) as usize, random),
        _ => lent.memory.len() + random.between(1, 64) as usize,
    };
    lent.memory.resize(length, byte);
}
