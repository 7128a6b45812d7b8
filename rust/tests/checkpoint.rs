//! Images of machines: that they are as docs/MACHINE.md says, come back, and what is lent to the two calls.
#![cfg(feature = "checkpoint")]

mod common;

use std::fs;

use common::{any_pages, any_state, image_of, repository, Random, PAGE_BYTES};
use yokeglimmer::raw::{self, Told};
use yokeglimmer::{BadCheckpoint, Checkpoint, Refusal, State, MOST_IMAGE_BYTES, STATE_BYTES};

const FILL: u8 = 0xa5;

fn told(code: u64, length: u64) -> Told {
    Told { code, particular: 0, length }
}

fn any_machine(pages: usize, random: &mut Random) -> (State, Vec<u8>) {
    (any_state(random), any_pages(pages, random))
}

/// Written with so many bytes to spare, the image is in the front and the others stay; read, it is the machine again.
fn comes_back(state: &State, memory: &[u8], spare: usize) {
    let image = image_of(state, memory);
    let mut written = vec![FILL; image.len() + spare];
    assert_eq!(raw::checkpoint_write(&state.to_bytes(), memory, &mut written), told(0, image.len() as u64));
    assert!(written[..image.len()] == image[..] && written[image.len()..].iter().all(|&byte| byte == FILL));
    let (mut bytes, mut restored) = ([FILL; STATE_BYTES], vec![FILL; memory.len()]);
    assert_eq!(raw::checkpoint_read(&image, &mut bytes, &mut restored), told(0, 0));
    assert!(bytes == state.to_bytes() && restored == memory);
}

#[test]
fn generated_machines_of_every_number_of_pages() {
    let mut random = Random(3);
    for (pages, spare) in (0..=16).flat_map(|pages| [0, 0, 0, 1, 5000].map(|spare| (pages, spare))) {
        let (state, memory) = any_machine(pages, &mut random);
        comes_back(&state, &memory, spare);
        let image = Checkpoint::write(&state, &memory).unwrap_or_else(|wrong| panic!("{wrong}"));
        assert!(image == image_of(&state, &memory), "{pages} pages");
        let read = Checkpoint::read(&image, memory.len()).unwrap_or_else(|bad| panic!("{bad}"));
        assert!(read == Checkpoint { state, memory }, "{pages} pages");
    }
}

#[test]
fn the_least_and_the_largest_image() {
    let length = |memory: &[u8]| Checkpoint::write(&State::new(0), memory).map(|image| image.len());
    assert_eq!((length(&[]), length(&[0; 65_536]), length(&[0; 4096])), (Ok(416), Ok(416), Ok(416)));
    assert_eq!((length(&[1; 4096]), length(&[1; 65_536])), (Ok(4532), Ok(MOST_IMAGE_BYTES)));
    assert_eq!(MOST_IMAGE_BYTES, 66_272);
}

/// What the memory held before is gone, also in pages that the image does not hold; so is what the state's bytes were.
#[test]
fn pages_that_are_not_held_are_zeros() {
    let mut memory = vec![0; 3 * PAGE_BYTES];
    memory[PAGE_BYTES + 17] = 9;
    let image = image_of(&State::new(4), &memory);
    let (mut state, mut restored) = ([0xff; STATE_BYTES], vec![0xff; 3 * PAGE_BYTES]);
    assert_eq!(raw::checkpoint_read(&image, &mut state, &mut restored), told(0, 0));
    assert!(state == State::new(4).to_bytes() && restored == memory);
}

/// An image holds no length of memory: one that is long enough for the pages takes it.
#[test]
fn memory_of_another_length() {
    let mut memory = vec![0; 2 * PAGE_BYTES];
    memory[PAGE_BYTES] = 9;
    let image = image_of(&State::new(4), &memory);
    for length in [2, 3, 16].map(|pages| pages * PAGE_BYTES) {
        memory.resize(length, 0);
        assert!(Checkpoint::read(&image, length).map(|read| read.memory) == Ok(memory.clone()), "{length} bytes");
    }
    for length in [0, PAGE_BYTES] {
        assert_eq!(
            Checkpoint::read(&image, length).map_err(|bad| bad.refusal()),
            Err(Refusal::BadImage),
            "{length} bytes"
        );
    }
}

/// The fenced block is the table of the image that stands around it.
#[test]
fn the_example_of_the_reference_page() {
    let page = fs::read_to_string(repository("docs/MACHINE.md")).expect("docs/MACHINE.md is there");
    let block = page.split("```image\n").nth(1).and_then(|rest| rest.split("```").next()).expect("the example");
    let table: Vec<u8> =
        block.split_whitespace().map(|byte| u8::from_str_radix(byte, 16).expect("a byte in hex")).collect();
    let mut memory = vec![0; 2 * PAGE_BYTES];
    memory[4096] = 7;
    let image = Checkpoint::write(&State::new(12), &memory).expect("two pages");
    assert_eq!((image.len(), &image[..28]), (4532, &table[..]));
    let others: Vec<(usize, u8)> = (28..).zip(image[28..].iter().copied()).filter(|&(_, byte)| byte != 0).collect();
    assert_eq!(others, [(28, 12), (429, 0x10), (436, 7)]);
}

/// Neither is taken, whatever else is wrong, and nothing is written.
#[test]
fn lengths_that_no_memory_has_come_first() {
    let damaged = [2; STATE_BYTES];
    for length in [1, 4095, 4097, 8191, 65_535, 65_537, 69_632, 131_072] {
        let memory = vec![1; length];
        for (state, room) in [(&State::new(0).to_bytes()[..], MOST_IMAGE_BYTES), (&damaged, 10), (&[], 0)] {
            let mut image = vec![FILL; room];
            assert_eq!(raw::checkpoint_write(state, &memory, &mut image), told(9, 0), "{length} bytes");
            assert!(image.iter().all(|&byte| byte == FILL));
        }
        let wrong = Checkpoint::write(&State::new(0), &memory).expect_err("refused");
        for image in [image_of(&State::new(0), &[]), b"no image".to_vec()] {
            let (mut state, mut lent) = ([FILL; STATE_BYTES], memory.clone());
            assert_eq!(raw::checkpoint_read(&image, &mut state, &mut lent), told(9, 0), "{length} bytes");
            assert!(state == [FILL; STATE_BYTES] && lent == memory);
            assert_eq!(Checkpoint::read(&image, length), Err(BadCheckpoint::Memory(wrong)));
        }
    }
}

#[test]
fn a_state_that_is_malformed_is_not_written() {
    let (good, mut met) = (any_state(&mut Random(5)).to_bytes(), [0; 2]);
    for (place, byte) in (0..STATE_BYTES).flat_map(|place| [0, 1, 2, 0x40, 0x41, 0xff].map(|byte| (place, byte))) {
        let mut state = good;
        state[place] = byte;
        let mut image = vec![FILL; 416];
        let answer = raw::checkpoint_write(&state, &[], &mut image);
        let taken = State::try_from(state);
        match &taken {
            Ok(state) => assert!(answer == told(0, 416) && image == image_of(state, &[]), "byte {place} is {byte}"),
            Err(_) => assert!(answer == told(9, 0) && image == vec![FILL; 416], "byte {place} is {byte}"),
        }
        met[usize::from(taken.is_ok())] += 1;
    }
    assert!(met.iter().all(|&times| times > 500), "both verdicts are met often: {met:?}");
}

#[test]
fn state_bytes_of_another_length() {
    let image = image_of(&State::new(0), &[]);
    for length in [0, 1, 399, 401, 800] {
        let (mut written, mut state) = (vec![FILL; 10], vec![0; length]);
        assert_eq!(raw::checkpoint_write(&state, &[], &mut written), told(9, 0), "before the room is looked at");
        for bytes in [&image[..], b"no image"] {
            assert_eq!(raw::checkpoint_read(bytes, &mut state, &mut []), told(9, 0), "before the image is looked at");
        }
        assert_eq!((written, state), (vec![FILL; 10], vec![0; length]));
    }
}

#[test]
fn too_little_room_for_the_image() {
    let mut random = Random(6);
    for pages in 0..=16 {
        let (state, memory) = any_machine(pages, &mut random);
        let needed = image_of(&state, &memory).len();
        for room in [0, 3, 16, 415, needed / 2, needed - 1].into_iter().filter(|&room| room < needed) {
            let mut image = vec![FILL; room];
            assert_eq!(
                raw::checkpoint_write(&state.to_bytes(), &memory, &mut image),
                told(11, 0),
                "{room} of {needed}"
            );
            assert!(image.iter().all(|&byte| byte == FILL));
        }
    }
}

#[test]
fn what_is_said_of_a_memory() {
    let wrong = Checkpoint::write(&State::new(0), &[0; 69_632]).expect_err("seventeen pages");
    let said = "refused 9: the memory has 69632 bytes, and a checkpoint's has a multiple of 4096, at most 65536";
    assert_eq!((wrong.length, wrong.to_string().as_str(), wrong.refusal()), (69_632, said, Refusal::Malformed));
    for length in [69_632, usize::MAX, usize::MAX - 4095] {
        let bad = Checkpoint::read(b"no image", length).expect_err("too much memory");
        assert_eq!((bad.to_string(), bad.refusal()), (said.replace("69632", &length.to_string()), Refusal::Malformed));
        assert_eq!(std::error::Error::source(&bad).expect("the memory").to_string(), bad.to_string());
    }
}
