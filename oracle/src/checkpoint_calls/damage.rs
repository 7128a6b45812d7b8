use crate::checkpoint::{ADDRESS_BYTES, MOST_MEMORY, PAGE_BYTES, PAGE_KIND, STATE_KIND};
use crate::generate::damage::damaged;
use crate::layout::STATE_BYTES;
use crate::random::Random;

use super::parts::{Entry, Parts};

/// Differences that make one place of an image another.
pub const DISTANCES: [u32; 10] = [1, 2, 4, 8, 12, 16, 400, 4096, 4104, 4116];

/// Changes an image once. What some changes leave is an image of another machine.
pub fn damage(parts: &mut Parts, random: &mut Random) {
    match random.below(6) {
        0 => damage_table(parts, random),
        1 => damage_sizes(parts, random),
        2 => damage_list(parts, random),
        3 => damage_page(parts, random),
        4 => damage_state(parts, random),
        _ => {
            let more = random.pick(&DISTANCES) as usize;
            parts.behind = random.bytes(more);
        }
    }
}

fn any_entry<'p>(parts: &'p mut Parts, random: &mut Random) -> Option<&'p mut Entry> {
    let count = parts.entries.len() as u64;
    (count > 0).then(|| &mut parts.entries[random.below(count) as usize])
}

/// A difference of a number, up or down.
fn error(random: &mut Random) -> u32 {
    match random.below(4) {
        0 => random.draw() as u32,
        1 => 1 << random.below(32),
        2 => random.pick(&DISTANCES),
        _ => random.pick(&DISTANCES).wrapping_neg(),
    }
}

fn damage_table(parts: &mut Parts, random: &mut Random) {
    let error = error(random);
    if random.chance(4) {
        parts.count_error = error;
        return;
    }
    let kind = random.pick(&[0, STATE_KIND, PAGE_KIND, 3, 1 << 8, 1 << 16, u32::MAX]);
    let way = random.below(3);
    if let Some(entry) = any_entry(parts, random) {
        match way {
            0 => entry.kind = kind,
            1 => entry.offset_error = error,
            _ => entry.length = entry.length.wrapping_add(error),
        }
    }
}

/// A body longer or shorter than it was, and the table as it was, or as the bodies are now: gaps and overlaps.
fn damage_sizes(parts: &mut Parts, random: &mut Random) {
    let size = random.pick(&DISTANCES) as usize;
    let [grows, is_said, trusts] = [0; 3].map(|_| random.chance(2));
    let more = random.bytes(size);
    if let Some(entry) = any_entry(parts, random) {
        if grows {
            entry.body.extend(more);
        } else {
            entry.body.truncate(entry.body.len().saturating_sub(size));
        }
        if is_said {
            entry.length = entry.body.len() as u32;
        }
    }
    if trusts {
        parts.trust_lengths();
    }
}

/// Two entries swapped with their bodies, one taken away, written twice, or put in that means nothing.
fn damage_list(parts: &mut Parts, random: &mut Random) {
    if parts.entries.is_empty() {
        return;
    }
    let [one, other] = [0; 2].map(|_| random.below(parts.entries.len() as u64) as usize);
    match random.below(4) {
        0 => parts.entries.swap(one, other),
        1 => {
            parts.entries.remove(one);
        }
        2 => parts.entries.insert(other, parts.entries[one].clone()),
        _ => parts.entries.insert(other, Entry::of(random.below(4) as u32, vec![])),
    }
}

/// A page of zeros, or at another address.
fn damage_page(parts: &mut Parts, random: &mut Random) {
    let Some((page, address)) = any_entry(parts, random).and_then(|entry| entry.address().map(|at| (entry, at))) else {
        return;
    };
    let pages = (MOST_MEMORY / PAGE_BYTES) as u64;
    match random.below(6) {
        0 | 1 => page.body[ADDRESS_BYTES..].fill(0),
        2 => page.set_address(PAGE_BYTES as u64 * random.below(pages + 2)),
        3 => page.set_address(address ^ 1 << random.below(64)),
        4 => page.set_address(random.draw()),
        _ => page.set_address(random.below(PAGE_BYTES as u64 + 2).wrapping_neg()),
    }
}

fn damage_state(parts: &mut Parts, random: &mut Random) {
    let state = damaged(random).state;
    if let Some(first) = parts.entries.first_mut().filter(|_| state.len() == STATE_BYTES) {
        first.body = state;
    }
}

/// Changes some bytes, without regard to what they mean.
pub fn edit(image: &mut Vec<u8>, random: &mut Random) {
    if image.is_empty() {
        return;
    }
    let place = match random.below(2) {
        0 => random.below(image.len() as u64) as usize,
        _ => random.below(image.len().min(64) as u64) as usize,
    };
    match random.below(6) {
        0 => image[place] = random.draw() as u8,
        1 => image[place] ^= 1 << random.below(8),
        2 => image.insert(place, random.draw() as u8),
        3 => {
            image.remove(place);
        }
        4 => image.truncate(place),
        _ => {
            let length = random.pick(&[4, 8, 12, 64]).min(image.len() - place);
            let from = random.below((image.len() - length) as u64 + 1) as usize;
            image.copy_within(from..from + length, place);
        }
    }
}
