//! Damaged images: each is refused and changes nothing, and the first thing that is wrong is told, with its place.
#![cfg(feature = "checkpoint")]

mod common;

use std::collections::BTreeSet;
use std::error::Error;

use common::{any_pages, any_state, image_of, Random, PAGE_BYTES};
use yokeglimmer::raw::{self, Told};
use yokeglimmer::{BadCheckpoint, BrokenRule, Checkpoint, Damage, Refusal, Register, State, STATE_BYTES};

const FILL: u8 = 0xa5;
const LIMIT: u64 = 1 << 30;

/// Of four pages, those at 4,096 and 12,288 hold something: where the parts of the image begin, and where it ends.
const MEMORY_BYTES: usize = 4 * PAGE_BYTES;
const STATE: usize = 40;
const FIRST: usize = 440;
const SECOND: usize = 4544;
const END: usize = 8648;

/// R1 whole, R2 accumulated, the rest fresh.
fn state() -> State {
    let mut state = State::new(12);
    state.set_register(1, Register::Whole(u64::MAX)).expect("well-formed");
    state.set_bound(1, 64).expect("well-formed");
    state.set_register(2, Register::Accumulated { low: 5, high: LIMIT - 1 }).expect("well-formed");
    state
}

fn image() -> Vec<u8> {
    let mut memory = vec![0; MEMORY_BYTES];
    memory[4096 + 7] = 7;
    memory[12288 + 4095] = 9;
    image_of(&state(), &memory)
}

/// The archive refuses the image and changes nothing; what is told of it.
fn refusal(image: &[u8], memory_length: usize) -> BadCheckpoint {
    let (mut state, mut memory) = ([FILL; STATE_BYTES], vec![FILL; memory_length]);
    let told = raw::checkpoint_read(image, &mut state, &mut memory);
    let bad = Checkpoint::read(image, memory_length).expect_err("a damaged image");
    assert_eq!(told, Told { code: 11, particular: 0, length: 0 }, "{bad}");
    assert!(state == [FILL; STATE_BYTES] && memory == vec![FILL; memory_length], "{bad}");
    assert_eq!(bad.refusal(), Refusal::BadImage);
    bad
}

/// An image that is spoiled, from a byte on: what is told of it, and where.
fn refuses(changed: usize, at: usize, damage: Damage, spoil: impl Fn(&mut Vec<u8>)) {
    let (good, mut image) = (image(), image());
    spoil(&mut image);
    let first = (0..).find(|&place| good.get(place) != image.get(place));
    assert_eq!(first, Some(changed), "the first byte that was changed: {damage}");
    assert_eq!(refusal(&image, MEMORY_BYTES), BadCheckpoint::Image { at, damage });
}

fn put(image: &mut [u8], at: usize, number: u32) {
    image[at..at + 4].copy_from_slice(&number.to_le_bytes());
}

/// The offsets that stand there grow.
fn raise(image: &mut [u8], offsets: &[usize], by: u8) {
    for &at in offsets {
        image[at] += by;
    }
}

fn put_address(image: &mut [u8], at: usize, address: u64) {
    image[at..at + 8].copy_from_slice(&address.to_le_bytes());
}

#[test]
fn it_is_right_before_it_is_damaged() {
    let read = Checkpoint::read(&image(), MEMORY_BYTES).unwrap_or_else(|bad| panic!("{bad}"));
    assert_eq!((read.state, image().len()), (state(), END));
}

#[test]
fn a_wrong_count() {
    for (count, changed) in
        [(0, 0), (1, 0), (2, 0), (4, 0), (17, 0), (3 + (1 << 8), 1), (3 + (1 << 31), 3), (u32::MAX, 0)]
    {
        refuses(changed, 0, Damage::Count { count: count.into(), due: 3 }, |image| put(image, 0, count));
    }
}

/// Where the rest does not tell of another count either.
#[test]
fn a_count_that_leads_nowhere() {
    let largest = Damage::TableCut { count: 4_294_967_295, table: 51_539_607_544 };
    refuses(0, 100, largest, |image| {
        image.truncate(100);
        put(image, 0, u32::MAX);
    });
    refuses(0, 0, Damage::NoEntry, |image| {
        image.truncate(100);
        put(image, 0, 0);
    });
    refuses(0, END + 12, Damage::Missing { length: END as u64 + 12, due: END as u64 + 4116 }, |image| {
        put(image, 0, 4); // and a fourth entry without its body
        raise(image, &[8, 20, 32], 12);
        let entry = [2, END as u32 + 12, 4104].map(u32::to_le_bytes);
        drop(image.splice(STATE..STATE, entry.concat()));
    });
}

#[test]
fn a_wrong_kind() {
    refuses(4, 4, Damage::Kind { entry: 1, kind: 2, due: 1 }, |image| put(image, 4, 2));
    refuses(4, 4, Damage::Kind { entry: 1, kind: 0, due: 1 }, |image| put(image, 4, 0));
    refuses(16, 16, Damage::Kind { entry: 2, kind: 1, due: 2 }, |image| put(image, 16, 1));
    refuses(28, 28, Damage::Kind { entry: 3, kind: 3, due: 2 }, |image| put(image, 28, 3));
    refuses(31, 28, Damage::Kind { entry: 3, kind: 0x8000_0002, due: 2 }, |image| put(image, 28, 0x8000_0002));
}

#[test]
fn a_table_that_points_into_itself_or_nowhere() {
    for (offset, changed) in [(0, 8), (4, 8), (28, 8), (39, 8), (41, 8), (u32::MAX, 8), (40 + (1 << 31), 11)] {
        let damage = Damage::Offset { entry: 1, offset: offset.into(), due: 40 };
        refuses(changed, 8, damage, |image| put(image, 8, offset));
    }
    for offset in [0, 40, 439, END as u32, u32::MAX - 4103, u32::MAX] {
        let damage = Damage::Offset { entry: 2, offset: offset.into(), due: 440 };
        refuses(20, 20, damage, |image| put(image, 20, offset));
    }
}

#[test]
fn gaps() {
    refuses(8, 8, Damage::Offset { entry: 1, offset: 41, due: 40 }, |image| {
        raise(image, &[8, 20, 32], 1);
        image.insert(STATE, 0);
    });
    refuses(20, 20, Damage::Offset { entry: 2, offset: 441, due: 440 }, |image| {
        raise(image, &[20, 32], 1);
        image.insert(FIRST, 0);
    });
    refuses(32, 32, Damage::Offset { entry: 3, offset: 4545, due: 4544 }, |image| {
        put(image, 32, 4545);
        image.insert(SECOND, 0);
    });
    refuses(FIRST, END, Damage::Surplus { length: 8649, due: 8648 }, |image| image.insert(FIRST, 1));
}

#[test]
fn overlaps() {
    refuses(20, 20, Damage::Offset { entry: 2, offset: 432, due: 440 }, |image| put(image, 20, 432));
    refuses(32, 32, Damage::Offset { entry: 3, offset: 440, due: 4544 }, |image| put(image, 32, 440));
    refuses(32, 32, Damage::Offset { entry: 3, offset: 4536, due: 4544 }, |image| {
        put(image, 32, 4536); // a page's last eight bytes are the next one's address
        drop(image.drain(SECOND - 8..SECOND));
    });
}

#[test]
fn bodies_in_another_order_than_the_table() {
    refuses(20, 20, Damage::Offset { entry: 2, offset: 4544, due: 440 }, |image| {
        put(image, 20, 4544);
        put(image, 32, 440);
        image[FIRST..].rotate_left(SECOND - FIRST);
    });
}

#[test]
fn a_wrong_length_of_an_entry() {
    refuses(12, 12, Damage::Length { entry: 1, length: 399, due: 400 }, |image| put(image, 12, 399));
    refuses(12, 12, Damage::Length { entry: 1, length: 408, due: 400 }, |image| put(image, 12, 408));
    refuses(24, 24, Damage::Length { entry: 2, length: 4096, due: 4104 }, |image| put(image, 24, 4096));
    refuses(36, 36, Damage::Length { entry: 3, length: 4105, due: 4104 }, |image| put(image, 36, 4105));
    refuses(36, 36, Damage::Length { entry: 3, length: 4_294_967_295, due: 4104 }, |image| put(image, 36, u32::MAX));
}

#[test]
fn bytes_too_many() {
    for more in [1, 12, 4104, 4116, 70_000] {
        let damage = Damage::Surplus { length: (END + more) as u64, due: END as u64 };
        refuses(END, END, damage, |image| image.resize(END + more, 0));
    }
}

#[test]
fn bytes_missing_at_every_length() {
    for length in 0..END {
        let damage = match length {
            0..=3 => Damage::NoCount,
            4..=39 => Damage::TableCut { count: 3, table: 40 },
            _ => Damage::Missing { length: length as u64, due: END as u64 },
        };
        refuses(length, length, damage, |image| image.truncate(length));
    }
    refuses(FIRST, END - 1, Damage::Missing { length: 8647, due: 8648 }, |image| {
        image.remove(FIRST);
    });
}

#[test]
fn a_malformed_state() {
    for (place, byte, at, rule) in [
        (8, 2, 8, BrokenRule::HaltMark { byte: 2 }),
        (9, 1, 9, BrokenRule::Filler { byte: 1 }),
        (16, 1, 16, BrokenRule::ZeroRegister),
        (17, 1, 16, BrokenRule::ZeroRegister),
        (31, 1, 16, BrokenRule::ZeroRegister),
        (32, 1, 32, BrokenRule::SecondNumber { register: 0, number: 1 }),
        (40, 2, 40, BrokenRule::Kind { register: 1, byte: 2 }),
        (40, 1, 48, BrokenRule::Limb { register: 1, limb: u64::MAX }),
        (41, 65, 41, BrokenRule::Bound { register: 1, bound: 65 }),
        (47, 255, 47, BrokenRule::Filler { byte: 255 }),
        (63, 1, 56, BrokenRule::SecondNumber { register: 1, number: 1 << 56 }),
        (64, 0, 80, BrokenRule::SecondNumber { register: 2, number: LIMIT - 1 }),
        (75, 0x40, 72, BrokenRule::Limb { register: 2, limb: LIMIT + 5 }),
        (83, 0x40, 80, BrokenRule::Limb { register: 2, limb: LIMIT + 0xff_ffff }),
        (399, 1, 392, BrokenRule::SecondNumber { register: 15, number: 1 << 56 }),
    ] {
        refuses(STATE + place, STATE + at, Damage::State(rule), |image| image[STATE + place] = byte);
    }
}

#[test]
fn a_page_at_no_multiple() {
    for (address, changed) in [(1, FIRST), (4097, FIRST), (4096 + 512, FIRST + 1), (u64::MAX, FIRST)] {
        refuses(changed, FIRST, Damage::Misplaced { address }, |image| put_address(image, FIRST, address));
    }
}

#[test]
fn a_page_beyond_the_memory() {
    for (address, changed) in [(16384, 1), (65536, 1), (12288 + (1 << 32), 4), (1 << 63, 1), (u64::MAX - 4095, 1)] {
        let damage = Damage::Beyond { address, length: MEMORY_BYTES as u64 };
        refuses(SECOND + changed, SECOND, damage, |image| put_address(image, SECOND, address));
    }
    for (length, at, address) in [(0, FIRST, 4096), (4096, FIRST, 4096), (8192, SECOND, 12288), (12288, SECOND, 12288)]
    {
        let damage = Damage::Beyond { address, length: length as u64 };
        assert_eq!(refusal(&image(), length), BadCheckpoint::Image { at, damage });
    }
}

/// More pages than memory has are no image's, however they are placed.
#[test]
fn seventeen_pages() {
    let image = image_of(&state(), &[1; 17 * PAGE_BYTES]);
    let damage = Damage::Beyond { address: 65_536, length: 65_536 };
    assert_eq!(refusal(&image, 65_536), BadCheckpoint::Image { at: image.len() - 4104, damage });
}

#[test]
fn a_page_twice() {
    refuses(SECOND + 1, SECOND, Damage::Twice { address: 4096 }, |image| put_address(image, SECOND, 4096));
    refuses(SECOND + 1, SECOND, Damage::Twice { address: 4096 }, |image| {
        image.copy_within(FIRST..SECOND, SECOND);
    });
    let mut image = image_of(&state(), &[1; 3 * PAGE_BYTES]);
    let last = image.len() - 4104;
    put_address(&mut image, last, 0);
    let damage = Damage::Twice { address: 0 };
    assert_eq!(refusal(&image, 3 * PAGE_BYTES), BadCheckpoint::Image { at: last, damage });
}

#[test]
fn pages_out_of_order() {
    let damage = Damage::Behind { address: 4096, larger: 12288 };
    refuses(FIRST + 1, SECOND, damage, |image| image[FIRST..].rotate_left(SECOND - FIRST));
    let damage = Damage::Behind { address: 0, larger: 4096 };
    refuses(SECOND + 1, SECOND, damage, |image| put_address(image, SECOND, 0));
}

#[test]
fn a_page_of_zeros() {
    refuses(FIRST + 15, FIRST + 8, Damage::Zeros { address: 4096 }, |image| image[FIRST + 15] = 0);
    refuses(END - 1, SECOND + 8, Damage::Zeros { address: 12288 }, |image| image[END - 1] = 0);
}

/// What is said of each damage.
const WORDS: [(Damage, &str); 15] = [
    (Damage::NoCount, "the image ends within the count of its entries"),
    (Damage::Count { count: 4, due: 3 }, "the count of entries is 4, and must be 3"),
    (Damage::NoEntry, "the count of entries is 0, and the state's is always there"),
    (Damage::TableCut { count: 9, table: 112 }, "the image ends within its table, which takes 112 bytes for 9 entries"),
    (Damage::Kind { entry: 2, kind: 1, due: 2 }, "entry 2 is of kind 1, and must be of kind 2"),
    (Damage::Offset { entry: 2, offset: 428, due: 440 }, "entry 2 is said to be at byte 428, and must be at 440"),
    (Damage::Length { entry: 2, length: 1, due: 4104 }, "entry 2 is said to have 1 bytes, and must have 4104"),
    (
        Damage::Missing { length: 99, due: 416 },
        "bytes are missing at the end: the image has 99, and its table tells of 416",
    ),
    (
        Damage::Surplus { length: 417, due: 416 },
        "bytes follow the last entry: the image has 417, and its table tells of 416",
    ),
    (Damage::State(BrokenRule::HaltMark { byte: 2 }), "the state is malformed: the halt mark is 2, and may be 0 or 1"),
    (Damage::Misplaced { address: 5 }, "a page is at address 5, and must be at a multiple of 4096"),
    (Damage::Beyond { address: 8192, length: 4096 }, "the page at address 8192 is beyond the memory's 4096 bytes"),
    (Damage::Twice { address: 4096 }, "the page at address 4096 is held already"),
    (
        Damage::Behind { address: 0, larger: 4096 },
        "the page at address 0 stands behind the one at 4096, and must stand before it",
    ),
    (Damage::Zeros { address: 0 }, "the page at address 0 is all zeros, and such pages are not held"),
];

#[test]
fn what_is_said() {
    for (damage, words) in WORDS {
        let bad = BadCheckpoint::Image { at: 20, damage };
        assert_eq!(bad.to_string(), format!("refused 11: {words} (byte 20 of the image)"));
        let rule = bad.source().map(ToString::to_string);
        assert_eq!(rule.is_some(), matches!(damage, Damage::State(_)));
        assert!(rule.map_or(true, |rule| words.ends_with(&rule)));
    }
}

/// An image of one page with a byte changed: refused, or that of another machine. Whether it is refused.
fn is_refused(good: &[u8], place: usize, byte: u8) -> bool {
    let mut image = good.to_vec();
    image[place] = byte;
    let read = match Checkpoint::read(&image, 2 * PAGE_BYTES) {
        Ok(read) => read,
        Err(_) => return tells_the_place(&image, place),
    };
    assert!(image_of(&read.state, &read.memory) == image, "byte {place} is {byte}");
    assert_eq!(Checkpoint::write(&read.state, &read.memory).as_ref(), Ok(&image), "byte {place} is {byte}");
    false
}

/// That an image that was changed there is refused at the field's first byte; at the state's, as its bytes are by
/// themselves.
fn tells_the_place(image: &[u8], place: usize) -> bool {
    let due = match place {
        0..=27 => place / 4 * 4,
        28..=427 => 28 + State::try_from(&image[28..428]).expect_err("malformed").at,
        428..=435 => 428,
        _ => 436,
    };
    let bad = refusal(image, 2 * PAGE_BYTES);
    assert!(matches!(bad, BadCheckpoint::Image { at, .. } if at == due), "{bad}, of byte {place}");
    true
}

#[test]
fn every_byte_of_a_small_image_changed() {
    let mut memory = vec![0; 2 * PAGE_BYTES];
    memory[4096 + 100] = 7;
    let (good, mut met) = (image_of(&state(), &memory), [0; 2]);
    for place in 0..good.len() {
        for byte in (0..=255).filter(|&byte| byte != good[place]) {
            met[usize::from(is_refused(&good, place, byte))] += 1;
        }
    }
    assert!(met.iter().all(|&times| times > 20_000), "both are met often: {met:?}");
}

/// Wherever the archive refuses an image, something is found to be wrong with it (else `Checkpoint::read` panics).
#[test]
fn every_bad_image_has_a_damage() {
    let (mut random, mut met, mut good) = (Random(12), BTreeSet::new(), 0);
    for number in 0..20_000 {
        let memory = any_pages(random.below(4) as usize, &mut random);
        let mut image = image_of(&any_state(&mut random), &memory);
        for _ in 0..=random.below(3) {
            damage(&mut image, &mut random);
        }
        match Checkpoint::read(&image, memory.len()) {
            Err(BadCheckpoint::Image { at, damage }) => {
                assert!(at <= image.len(), "image {number}: {damage} at {at}");
                met.insert(format!("{damage:?}").split([' ', '(']).next().map(str::to_string));
            }
            Err(bad) => panic!("image {number}: {bad}"),
            Ok(read) => {
                assert!(image_of(&read.state, &read.memory) == image, "image {number}");
                good += 1;
            }
        }
    }
    assert!(met.len() == WORDS.len() && good > 1_000, "{good} are images, of the others is told: {met:?}");
}

/// A field of the table, a page's address, or any byte changed, a page cleared, or bytes taken away, added or doubled.
fn damage(image: &mut Vec<u8>, random: &mut Random) {
    const NUMBERS: [u32; 12] = [0, 1, 2, 3, 4, 16, 28, 400, 428, 4104, 4096, u32::MAX];
    const ADDRESSES: [u64; 7] = [0, 1, 4096, 8192, 65_536, u64::MAX, u64::MAX - 4095];
    let below = |limit: usize, random: &mut Random| random.below(limit as u64) as usize;
    let bodies = image.len().saturating_sub(416) / 4116;
    let body = (0..bodies).map(|page| 416 + 12 * bodies + 4104 * page).nth(below(bodies.max(1), random));
    match (random.below(8), body) {
        (0, _) if image.len() >= 16 => put(image, 4 * below(4 + 3 * bodies, random), NUMBERS[below(12, random)]),
        (1, Some(at)) => put_address(image, at, ADDRESSES[below(7, random)]),
        (2, Some(at)) => image[at + 8..at + 4104].fill(0),
        (3, _) => image.truncate(below(image.len() + 1, random)),
        (4, _) => image.resize(image.len() + [1, 12, 4104, 4116][below(4, random)], random.draw() as u8),
        (5, Some(at)) => image[at + 8 + below(PAGE_BYTES, random)] = random.draw() as u8,
        _ if !image.is_empty() => {
            let at = below(image.len().min(500), random);
            image[at] ^= 1 << random.below(8);
        }
        _ => (),
    }
}
