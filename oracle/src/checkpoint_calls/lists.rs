//! Images that are wrong in their entries or bodies, each in every way of a kind.

use crate::checkpoint::{PAGE_BYTES, PAGE_KIND};
use crate::layout::STATE_BYTES;

use super::call::Call;
use super::damage::DISTANCES;
use super::machine::Machine;
use super::parts::{number_of_table, Entry, Parts};

const PAGE: u64 = PAGE_BYTES as u64;

/// Every list of at most four entries, most of them wrong: states, pages that hold a byte or none, within three pages of memory
/// and beyond them, and what has no body.
pub fn entries(visit: &mut dyn FnMut(Call)) {
    let (mut held, none) = ([0; PAGE_BYTES], [0; PAGE_BYTES]);
    held[PAGE_BYTES - 1] = 1;
    let choices = [
        Entry::state(&[0; STATE_BYTES]),
        Entry::state(&[0xff; STATE_BYTES]),
        Entry::page(0, &held),
        Entry::page(PAGE, &held),
        Entry::page(2 * PAGE, &held),
        Entry::page(3 * PAGE, &held),
        Entry::page(PAGE, &none),
        Entry::of(PAGE_KIND, vec![]),
        Entry::of(0, vec![]),
    ];
    for length in 0..=4 {
        for number in 0..choices.len().pow(length) {
            let entry = |place: u32| choices[number / choices.len().pow(place) % choices.len()].clone();
            let parts = Parts::from_entries((0..length).map(entry).collect());
            visit(Call::read(parts.image(), 3 * PAGE_BYTES));
        }
    }
}

/// An image of so many pages, the last of them not held.
fn example(pages: usize) -> (Parts, usize) {
    let machine = Machine::holding(pages + 1, (0..pages).map(|page| (PAGE_BYTES * page, 1)));
    (Parts::of(&machine), machine.memory.len())
}

/// Each number of the table made many others: small ones, those near it, those with one bit changed, the others of the table, and
/// those from which a sum of 32 bits would wrap.
pub fn table(visit: &mut dyn FnMut(Call)) {
    for pages in 0..=3 {
        let (parts, memory_length) = example(pages);
        let image = parts.image();
        let numbers: Vec<u32> = (0..4 + 3 * pages).filter_map(|place| number_of_table(&image, place)).collect();
        let far = DISTANCES.map(u32::wrapping_neg).into_iter().chain([u32::MAX - 1, image.len() as u32]);
        let others: Vec<u32> = (0..=20).chain(numbers.iter().copied()).chain(far).collect();
        for (place, &right) in numbers.iter().enumerate() {
            let near = DISTANCES.iter().flat_map(|&by| [right.wrapping_add(by), right.wrapping_sub(by)]);
            let bits = (0..32).map(|bit| right ^ 1 << bit);
            for number in others.iter().copied().chain(near).chain(bits) {
                let mut image = image.clone();
                image[4 * place..][..4].copy_from_slice(&number.to_le_bytes());
                visit(Call::read(image, memory_length));
            }
        }
    }
}

/// Each address made many others: multiples, those near them, those with one bit changed, and the last ones.
pub fn addresses(visit: &mut dyn FnMut(Call)) {
    let (parts, memory_length) = example(3);
    for (place, entry) in parts.entries.iter().enumerate().skip(1) {
        let right = PAGE * (place as u64 - 1);
        assert_eq!(entry.address(), Some(right));
        let multiples = (0..20).map(|number| PAGE * number);
        let near = multiples.flat_map(|address| [address.wrapping_sub(1), address, address + 1, address + 8]);
        let bits = (0..64).map(|bit| right ^ 1 << bit);
        let last = [u64::MAX, 1 << 63, PAGE, 2 * PAGE, 4 * PAGE].map(u64::wrapping_neg);
        for address in near.chain(bits).chain(last) {
            let mut parts = parts.clone();
            parts.entries[place].set_address(address);
            visit(Call::read(parts.image(), memory_length));
        }
    }
}

/// Each body made longer or shorter, with the length that the table says as it was or as the body's is, and the offsets of where
/// the bodies are or of the lengths said: gaps and overlaps.
pub fn sizes(visit: &mut dyn FnMut(Call)) {
    let (parts, memory_length) = example(2);
    let mut visit = |mut parts: Parts| {
        visit(Call::read(parts.image(), memory_length));
        parts.trust_lengths();
        visit(Call::read(parts.image(), memory_length));
    };
    for place in 0..parts.entries.len() {
        for by in DISTANCES.map(|by| by as usize) {
            for grows in [false, true] {
                let mut parts = parts.clone();
                let entry = &mut parts.entries[place];
                let length = if grows { entry.body.len() + by } else { entry.body.len().saturating_sub(by) };
                entry.body.resize(length, 0);
                visit(parts.clone());
                parts.entries[place].length = length as u32;
                visit(parts);
            }
        }
    }
}
