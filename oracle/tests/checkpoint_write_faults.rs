//! Deliberately wrong writers of checkpoints: each must be found, and its difference shrunk to what a reader can follow.

mod faulty_checkpoint;

use oracle::checkpoint::{is_zero, read, write, PAGE_BYTES};
use oracle::checkpoint_calls::{number_of_table, Entry, Machine, Parts, What};
use oracle::layout::{record_at, STATE_BYTES};
use oracle::told::Told;

use faulty_checkpoint::{assert_found, Write, BAD_IMAGE, MALFORMED};

/// Tests that this one is found, by a call of at most so many pages and bytes that are not zero.
fn wrong(write: Write, most_pages: usize, most_nonzero: usize) {
    assert_found(What::Write, write, read, most_pages, most_nonzero);
}

/// The writer, but for another memory in place of the one lent where that has a right length.
fn of_other_memory(state: &[u8], memory: &[u8], image: &mut [u8], change: fn(&mut [u8])) -> Told {
    let mut other = memory.to_vec();
    other.chunks_exact_mut(PAGE_BYTES).for_each(change);
    write(state, &other, image)
}

#[test]
fn pages_taken_for_empty() {
    let but_for_the_last_byte: Write = |state, memory, image| {
        of_other_memory(state, memory, image, |page| {
            if is_zero(&page[..PAGE_BYTES - 1]) {
                page.fill(0);
            }
        })
    };
    wrong(but_for_the_last_byte, 1, 1);
    let by_a_sum_that_wraps: Write = |state, memory, image| {
        of_other_memory(state, memory, image, |page| {
            if page.iter().fold(0, |sum: u8, &byte| sum.wrapping_add(byte)) == 0 {
                page.fill(0);
            }
        })
    };
    wrong(by_a_sum_that_wraps, 1, 2);
}

/// Where the right writer writes, what this makes of the image's parts is written, and where that does not fit, it is refused.
fn of_other_parts(state: &[u8], memory: &[u8], image: &mut [u8], change: fn(&Machine, &mut Parts)) -> Told {
    let machine = Machine { state: state.to_vec(), memory: memory.to_vec() };
    if write(state, memory, &mut [0; 70_000]).code != 0 {
        return MALFORMED;
    }
    let mut parts = Parts::of(&machine);
    change(&machine, &mut parts);
    let written = parts.image();
    match image.get_mut(..written.len()) {
        None => BAD_IMAGE,
        Some(front) => {
            front.copy_from_slice(&written);
            Told::written(written.len())
        }
    }
}

#[test]
fn empty_pages_held() {
    let writer: Write = |state, memory, image| {
        of_other_parts(state, memory, image, |machine, parts| {
            let pages = machine.memory.chunks(PAGE_BYTES).zip(0..);
            let entries = pages.map(|(page, number)| Entry::page(PAGE_BYTES as u64 * number, page));
            parts.entries.truncate(1);
            parts.entries.extend(entries);
        })
    };
    wrong(writer, 1, 0);
}

#[test]
fn a_wrong_table() {
    let writers: [Write; 4] = [
        |s, m, i| of_other_parts(s, m, i, |_, parts| parts.count_error = u32::MAX),
        |s, m, i| {
            of_other_parts(s, m, i, |_, parts| {
                let before_bodies = 4 + 12 * parts.entries.len() as u32;
                parts.entries.iter_mut().for_each(|entry| entry.offset_error = before_bodies.wrapping_neg());
            })
        },
        |s, m, i| of_other_parts(s, m, i, |_, parts| parts.entries[0].length = 408),
        |s, m, i| of_other_parts(s, m, i, |_, parts| parts.entries[0].kind = 0),
    ];
    for writer in writers {
        wrong(writer, 0, 0);
    }
}

#[test]
fn wrong_pages() {
    let falling: Write = |s, m, i| of_other_parts(s, m, i, |_, parts| parts.entries[1..].reverse());
    wrong(falling, 2, 2);
    let by_number: Write = |s, m, i| {
        of_other_parts(s, m, i, |_, parts| {
            for page in &mut parts.entries {
                page.set_address(page.address().unwrap_or(0) / PAGE_BYTES as u64);
            }
        })
    };
    wrong(by_number, 2, 2);
    let length_of_the_page: Write =
        |s, m, i| of_other_parts(s, m, i, |_, parts| parts.entries[1..].iter_mut().for_each(|page| page.length = 4096));
    wrong(length_of_the_page, 1, 2);
}

#[test]
fn what_is_written_besides() {
    let before_it_fits: Write = |state, memory, image| {
        let mut room = vec![0; 70_000];
        let told = write(state, memory, &mut room);
        let written = image.len().min(told.length as usize);
        image[..written].copy_from_slice(&room[..written]);
        if written < told.length as usize {
            return BAD_IMAGE;
        }
        told
    };
    wrong(before_it_fits, 0, 1);
    let behind: Write = |state, memory, image| {
        let told = write(state, memory, image);
        if told.code == 0 {
            image[told.length as usize..].fill(0);
        }
        told
    };
    wrong(behind, 0, 1);
}

#[test]
fn states_not_judged_rightly() {
    let no_limbs: Write = |state, memory, image| {
        let accumulated = state.len() == STATE_BYTES && (0..16).any(|register| state[record_at(register)] == 1);
        if accumulated {
            return MALFORMED;
        }
        write(state, memory, image)
    };
    wrong(no_limbs, 0, 1);
    let any_state: Write = |state, memory, image| {
        let told = write(&vec![0; state.len()], memory, image);
        if told.code == 0 {
            let at = number_of_table(image, 2).expect("an image has a table") as usize;
            image[at..at + STATE_BYTES].copy_from_slice(state);
        }
        told
    };
    wrong(any_state, 0, 1);
}

#[test]
fn lengths_not_judged_rightly() {
    let refuses_most: Write = |s, m, i| if m.len() == 65_536 { MALFORMED } else { write(s, m, i) };
    wrong(refuses_most, 16, 0);
    let refuses_none: Write = |s, m, i| if m.is_empty() { MALFORMED } else { write(s, m, i) };
    wrong(refuses_none, 0, 0);
    let takes_more: Write = |s, m, i| if m.len() == 69_632 { write(s, &m[..65_536], i) } else { write(s, m, i) };
    wrong(takes_more, 17, 0);
    let rounds_down: Write = |s, m, i| write(s, &m[..m.len() / PAGE_BYTES * PAGE_BYTES], i);
    wrong(rounds_down, 1, 0);
    let takes_longer_states: Write = |s, m, i| write(&s[..s.len().min(STATE_BYTES)], m, i);
    wrong(takes_longer_states, 0, 0);
}

#[test]
fn answers_that_are_wrong() {
    let room_first: Write = |s, m, i| if i.len() < 416 { BAD_IMAGE } else { write(s, m, i) };
    wrong(room_first, 1, 0);
    let tells_what_is_needed: Write = |s, m, i| match write(s, m, i) {
        BAD_IMAGE => Told { length: write(s, m, &mut [0; 70_000]).length, ..BAD_IMAGE },
        told => told,
    };
    wrong(tells_what_is_needed, 0, 0);
    let refused_as_malformed: Write = |s, m, i| match write(s, m, i) {
        BAD_IMAGE => MALFORMED,
        told => told,
    };
    wrong(refused_as_malformed, 0, 0);
    let tells_the_room: Write = |s, m, i| match write(s, m, i) {
        Told { code: 0, .. } => Told::written(i.len()),
        told => told,
    };
    wrong(tells_the_room, 0, 0);
}
