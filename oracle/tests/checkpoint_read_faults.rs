//! Deliberately wrong readers of checkpoints: each must be found, and its difference shrunk to what a reader can follow.

mod faulty_checkpoint;

use oracle::checkpoint::{is_zero, read, write, Contents, PAGE_BYTES};
use oracle::checkpoint_calls::{image_bytes, number_of_table, Entry, Parts, What};
use oracle::layout::{record_at, STATE_BYTES};
use oracle::told::Told;

use faulty_checkpoint::{assert_found, Read, BAD_IMAGE, MALFORMED};

/// Tests that this one is found, by a call of at most so many pages and bytes that are not zero.
fn wrong(read: Read, most_pages: usize, most_nonzero: usize) {
    assert_found(What::Read, write, read, most_pages, most_nonzero);
}

/// The reader, but for an image mended in its parts: so what is mended is not tested.
fn mended(image: &[u8], state: &mut [u8], memory: &mut [u8], mend: fn(&mut Parts)) -> Told {
    let Some(mut parts) = Parts::split(image) else {
        return read(image, state, memory);
    };
    mend(&mut parts);
    read(&parts.image(), state, memory)
}

fn is_empty_page(entry: &Entry) -> bool {
    entry.address().is_some() && is_zero(&entry.body[8..])
}

#[test]
fn a_table_that_is_not_tested() {
    let readers: [Read; 5] = [
        |i, s, m| mended(i, s, m, |parts| parts.count_error = 0),
        |i, s, m| mended(i, s, m, |parts| parts.entries[0].kind = 1),
        |i, s, m| mended(i, s, m, |parts| parts.entries[0].offset_error = 0),
        |i, s, m| mended(i, s, m, |parts| parts.entries[0].offset_error &= 0xffff),
        |i, s, m| mended(i, s, m, |parts| parts.entries[0].length = 400),
    ];
    for reader in readers {
        wrong(reader, 0, 7);
    }
    let readers: [Read; 3] = [
        |i, s, m| mended(i, s, m, |parts| parts.entries[1..].iter_mut().for_each(|entry| entry.kind = 2)),
        |i, s, m| mended(i, s, m, |parts| parts.entries[1..].iter_mut().for_each(|entry| entry.offset_error = 0)),
        |i, s, m| mended(i, s, m, |parts| parts.entries[1..].iter_mut().for_each(|entry| entry.length = 4104)),
    ];
    for reader in readers {
        wrong(reader, 1, 14);
    }
}

/// The image with each body where its entry says that it is, in order and with nothing else.
fn put_in_order(image: &[u8]) -> Option<Vec<u8>> {
    let entry = |number: usize| {
        let [kind, offset, length] = [1, 2, 3].map(|place| number_of_table(image, place + 3 * number));
        let offset = offset? as usize;
        Some(Entry::of(kind?, image.get(offset..offset + length? as usize)?.to_vec()))
    };
    let entries = (0..number_of_table(image, 0)? as usize).map(entry).collect::<Option<_>>()?;
    Some(Parts::from_entries(entries).image())
}

#[test]
fn a_table_that_is_followed_wherever_it_points() {
    let reader: Read = |image, state, memory| read(&put_in_order(image).unwrap_or_default(), state, memory);
    wrong(reader, 1, 12);
}

#[test]
fn pages_that_are_not_tested() {
    wrong(|i, s, m| mended(i, s, m, |parts| parts.entries.retain(|entry| !is_empty_page(entry))), 1, 11);
    wrong(|i, s, m| mended(i, s, m, |parts| parts.entries.sort_by_key(Entry::address)), 2, 22);
    wrong(|i, s, m| mended(i, s, m, |parts| parts.entries.dedup_by_key(|entry| entry.address())), 1, 20);
}

/// The parts with each page's address made another.
fn readdress(parts: &mut Parts, change: fn(u64) -> u64) {
    for entry in &mut parts.entries {
        if let Some(address) = entry.address() {
            entry.set_address(change(address));
        }
    }
}

#[test]
fn addresses_that_are_not_tested() {
    wrong(|i, s, m| mended(i, s, m, |parts| readdress(parts, |address| address & 0xffff_ffff)), 1, 14);
    wrong(|i, s, m| mended(i, s, m, |parts| readdress(parts, |address| address & !0xfff)), 1, 14);
    let leaves_out_beyond: Read = |image, state, memory| {
        let Some(mut parts) = Parts::split(image) else {
            return read(image, state, memory);
        };
        parts.entries.retain(|entry| entry.address().is_none_or(|address| address < memory.len() as u64));
        read(&parts.image(), state, memory)
    };
    wrong(leaves_out_beyond, 0, 14);
    let refuses_the_last: Read = |image, state, memory| match Contents::of(image, memory.len()) {
        Ok(contents) if contents.pages.iter().any(|page| page.address + PAGE_BYTES == memory.len()) => BAD_IMAGE,
        _ => read(image, state, memory),
    };
    wrong(refuses_the_last, 1, 14);
}

#[test]
fn bytes_behind_that_are_not_tested() {
    let reader: Read = |image, state, memory| {
        let right = (0..17).map(image_bytes).rev().find(|&length| length <= image.len());
        read(&image[..right.unwrap_or(image.len())], state, memory)
    };
    wrong(reader, 0, 5);
}

#[test]
fn states_not_judged_rightly() {
    let no_limbs: Read = |image, state, memory| match Contents::of(image, memory.len()) {
        Ok(contents) if (0..16).any(|register| contents.state[record_at(register)] == 1) => BAD_IMAGE,
        _ => read(image, state, memory),
    };
    wrong(no_limbs, 0, 6);
    let any_state: Read = |image, state, memory| {
        let right = read(image, state, memory);
        match Parts::split(image) {
            Some(mut parts) if right == BAD_IMAGE => {
                let given = std::mem::replace(&mut parts.entries[0].body, vec![0; STATE_BYTES]);
                let told = read(&parts.image(), state, memory);
                if told.code == 0 {
                    state.copy_from_slice(&given);
                }
                told
            }
            _ => right,
        }
    };
    wrong(any_state, 0, 6);
    let looks_at_what_was: Read = |image, state, memory| match write(state, &[], &mut [0; 416]) {
        MALFORMED => MALFORMED,
        _ => read(image, state, memory),
    };
    wrong(looks_at_what_was, 1, 1);
}

#[test]
fn memory_that_is_left() {
    let not_cleared: Read = |image, state, memory| {
        let before = memory.to_vec();
        let told = read(image, state, memory);
        if let (0, Ok(contents)) = (told.code, Contents::of(image, memory.len())) {
            memory.copy_from_slice(&before);
            contents.pages.iter().for_each(|page| memory[page.address..][..PAGE_BYTES].copy_from_slice(page.bytes));
        }
        told
    };
    wrong(not_cleared, 1, 6);
    let cleared_up_to_the_last_held: Read = |image, state, memory| {
        let before = memory.to_vec();
        let told = read(image, state, memory);
        if let (0, Ok(contents)) = (told.code, Contents::of(image, memory.len())) {
            let end = contents.pages.last().map_or(0, |page| page.address + PAGE_BYTES);
            memory[end..].copy_from_slice(&before[end..]);
        }
        told
    };
    wrong(cleared_up_to_the_last_held, 1, 6);
}

#[test]
fn what_is_changed_where_it_is_refused() {
    let state_first: Read = |image, state, memory| {
        let told = read(image, state, memory);
        match Parts::split(image) {
            Some(parts) if told == BAD_IMAGE => state.copy_from_slice(&parts.entries[0].body),
            _ => {}
        }
        told
    };
    wrong(state_first, 0, 1);
    let clears_first: Read = |image, state, memory| {
        let told = read(image, state, memory);
        if told == BAD_IMAGE {
            memory.fill(0);
        }
        told
    };
    wrong(clears_first, 1, 1);
}

#[test]
fn lengths_not_judged_rightly() {
    let refuses_most: Read = |i, s, m| if m.len() == 65_536 { MALFORMED } else { read(i, s, m) };
    wrong(refuses_most, 16, 0);
    let takes_more: Read = |i, s, m| if m.len() == 69_632 { read(i, s, &mut m[..65_536]) } else { read(i, s, m) };
    wrong(takes_more, 17, 0);
    let refuses_none: Read = |i, s, m| if m.is_empty() { MALFORMED } else { read(i, s, m) };
    wrong(refuses_none, 0, 0);
    let rounds_down: Read = |i, s, m| {
        let whole = m.len() / PAGE_BYTES * PAGE_BYTES;
        read(i, s, &mut m[..whole])
    };
    wrong(rounds_down, 1, 0);
    let takes_longer_states: Read = |i, s, m| {
        let length = s.len().min(STATE_BYTES);
        read(i, &mut s[..length], m)
    };
    wrong(takes_longer_states, 0, 0);
}

#[test]
fn answers_that_are_wrong() {
    let image_first: Read = |i, s, m| if i.len() < 416 { BAD_IMAGE } else { read(i, s, m) };
    wrong(image_first, 1, 0);
    let tells_its_length: Read = |i, s, m| match read(i, s, m) {
        Told { code: 0, .. } => Told::written(i.len()),
        told => told,
    };
    wrong(tells_its_length, 0, 5);
    let refused_as_malformed: Read = |i, s, m| match read(i, s, m) {
        BAD_IMAGE => MALFORMED,
        told => told,
    };
    wrong(refused_as_malformed, 0, 0);
}
