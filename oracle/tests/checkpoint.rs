//! The format of document 02, A3, rule by rule: what is written byte for byte, what is read, and what is refused.

use oracle::calls::Compared;
use oracle::checkpoint::{read, write, Broken, Contents, OracleCheckpoint, PAGE_BYTES};
use oracle::checkpoint_calls::{any, Call, Entry, Machine, Parts, What};
use oracle::layout::{put_number, record_at, STATE_BYTES};
use oracle::random::Random;
use oracle::told::Told;

const DONE: Told = Told { code: 0, particular: 0, length: 0 };
const MALFORMED: Told = Told { code: 9, ..DONE };
const BAD_IMAGE: Told = Told { code: 11, ..DONE };

/// Four pages, of which the second is held by its first byte and the last by its last.
fn example() -> Machine {
    Machine::holding(4, [(0x1000, 0xaa), (0x3fff, 0xbb)])
}

fn written(machine: &Machine) -> Vec<u8> {
    let mut image = vec![0xa5; 70_000];
    let told = write(&machine.state, &machine.memory, &mut image);
    assert_eq!((told.code, told.particular), (0, 0));
    assert!(image[told.length as usize..].iter().all(|&byte| byte == 0xa5));
    image.truncate(told.length as usize);
    image
}

/// What the machine's image is read as, into memory of its length.
fn read_back(machine: &Machine, image: &[u8]) -> Result<Machine, Told> {
    let mut back = Machine { state: vec![0xff; STATE_BYTES], memory: vec![0xff; machine.memory.len()] };
    let before = back.clone();
    let told = read(image, &mut back.state, &mut back.memory);
    assert!(told == DONE || back == before);
    (told == DONE).then_some(back).ok_or(told)
}

fn numbers(bytes: &[u8]) -> Vec<u32> {
    bytes.chunks_exact(4).map(|number| u32::from_le_bytes(number.try_into().expect("four bytes"))).collect()
}

#[test]
fn an_image_without_pages() {
    let mut machine = Machine::fresh(1);
    machine.state[0] = 0x44;
    let image = written(&machine);
    assert_eq!(image[..16], [1, 0, 0, 0, 1, 0, 0, 0, 16, 0, 0, 0, 0x90, 1, 0, 0]);
    assert_eq!(image[16..], machine.state);
    assert_eq!(written(&Machine { memory: vec![], ..machine }), image);
}

#[test]
fn an_image_with_two_pages() {
    let machine = example();
    let image = written(&machine);
    assert_eq!(image.len(), 8648);
    assert_eq!(numbers(&image[..40]), [3, 1, 40, 400, 2, 440, 4104, 2, 4544, 4104]);
    assert_eq!(image[40..440], machine.state);
    assert_eq!(image[440..448], [0, 0x10, 0, 0, 0, 0, 0, 0]);
    assert_eq!(image[448..4544], machine.memory[0x1000..0x2000]);
    assert_eq!(image[4544..4552], [0, 0x30, 0, 0, 0, 0, 0, 0]);
    assert_eq!(image[4552..], machine.memory[0x3000..]);
}

#[test]
fn what_is_written_is_read_back() {
    let mut random = Random::seeded(7);
    let machines = (0..300).map(|_| Machine::any(&mut random));
    for machine in machines.filter(|machine| write(&machine.state, &[], &mut [0; 416]).code == 0) {
        let image = written(&machine);
        assert!(image == machine.image() && read_back(&machine, &image).is_ok_and(|back| back == machine));
    }
}

#[test]
fn what_is_read_is_what_would_be_written() {
    let mut random = Random::seeded(8);
    let mut taken = 0;
    for call in (0..3_000).map(|_| any(&mut random)).filter(|call| call.what == What::Read) {
        let left = call.through(&OracleCheckpoint);
        if left.told == DONE {
            let machine = Machine { state: left.lent.state, memory: left.lent.memory };
            assert!(written(&machine) == call.lent.image);
            taken += 1;
        }
    }
    assert!(taken > 300, "{taken}");
}

#[test]
fn pages_not_held_become_zero() {
    let mut lent = Machine { state: vec![0xff; STATE_BYTES], memory: vec![0xff; 3 * PAGE_BYTES] };
    let image = Machine::holding(2, [(PAGE_BYTES, 1)]).image();
    assert_eq!(read(&image, &mut lent.state, &mut lent.memory), DONE);
    assert!(lent == Machine::holding(3, [(PAGE_BYTES, 1)]));
}

#[test]
fn accumulated_registers_are_kept() {
    let mut machine = example();
    machine.state[record_at(7)] = 1;
    put_number(&mut machine.state, record_at(7) + 16, (1 << 30) - 1);
    assert!(read_back(&machine, &written(&machine)).is_ok_and(|back| back == machine));
    put_number(&mut machine.state, record_at(7) + 16, 1 << 30);
    assert_eq!(read_back(&machine, &machine.image()), Err(BAD_IMAGE));
    assert_eq!(write(&machine.state, &machine.memory, &mut [0; 10_000]), MALFORMED);
}

#[test]
fn wrong_arguments_of_writing() {
    let Machine { state, memory } = example();
    let refused = |state: &[u8], memory: &[u8], room: usize| {
        let mut image = vec![0xa5; room];
        let told = write(state, memory, &mut image);
        assert!(image == vec![0xa5; room]);
        told
    };
    assert_eq!(refused(&state, &memory, 8647), BAD_IMAGE);
    assert_eq!(refused(&state, &[0; 65_536], 415), BAD_IMAGE);
    assert_eq!(refused(&state[1..], &memory, 0), MALFORMED);
    assert_eq!(refused(&[0xff; 400], &memory, 0), MALFORMED);
    for length in [1, 4095, 4097, 65_535, 65_537, 69_632] {
        assert_eq!(refused(&state, &vec![0; length], 70_000), MALFORMED, "{length}");
    }
}

#[test]
fn wrong_arguments_of_reading() {
    for image in [example().image(), vec![]] {
        for length in [0, 399, 401] {
            assert_eq!(read(&image, &mut vec![0; length], &mut [0; 16_384]), MALFORMED, "{length}");
        }
        for length in [1, 16_383, 16_385, 65_537, 69_632] {
            assert_eq!(read(&image, &mut [0; 400], &mut vec![0; length]), MALFORMED, "{length}");
        }
    }
}

/// The rule that the example's image breaks after this change, in its own memory.
fn broken(change: impl FnOnce(&mut Parts)) -> Option<Broken> {
    let machine = example();
    let mut parts = Parts::of(&machine);
    change(&mut parts);
    let image = parts.image();
    let broken = Contents::of(&image, machine.memory.len()).err();
    assert_eq!(read_back(&machine, &image).err(), broken.map(|_| BAD_IMAGE));
    broken
}

#[test]
fn a_table_that_is_wrong() {
    assert_eq!(broken(|_| {}), None);
    let count = |number: u32| broken(|parts| parts.count_error = number.wrapping_sub(3));
    for (number, rule) in [(0, Broken::Count), (2, Broken::Offset), (4, Broken::Offset), (u32::MAX, Broken::Count)] {
        assert_eq!(count(number), Some(rule));
    }
    assert_eq!(broken(|parts| parts.entries.clear()), Some(Broken::Count));
    for entry in 0..3 {
        for kind in [0, 2 - (entry > 0) as u32, 3, 0x101, u32::MAX] {
            assert_eq!(broken(|parts| parts.entries[entry].kind = kind), Some(Broken::Kind));
        }
        for error in [1, 4, 4104, 1 << 31, u32::MAX] {
            assert_eq!(broken(|parts| parts.entries[entry].offset_error = error), Some(Broken::Offset));
        }
        for length in [0, 399, 401, 4096, 4103, 4105, u32::MAX] {
            assert_eq!(broken(|parts| parts.entries[entry].length = length), Some(Broken::Length));
        }
    }
}

#[test]
fn bodies_that_are_wrong() {
    assert_eq!(broken(|parts| parts.behind.push(0)), Some(Broken::Behind));
    assert_eq!(broken(|parts| parts.entries[2].body.truncate(4103)), Some(Broken::Length));
    for entry in 0..2 {
        assert_eq!(broken(|parts| parts.entries[entry].body.push(0)), Some(Broken::Offset));
        assert_eq!(broken(|parts| parts.entries[entry].body.truncate(399)), Some(Broken::Offset));
    }
    assert_eq!(broken(|parts| parts.entries[0].body[record_at(1) + 1] = 65), Some(Broken::State));
    assert_eq!(broken(|parts| parts.entries[2].body[8..].fill(0)), Some(Broken::Zero));
}

#[test]
fn lists_that_are_wrong() {
    assert_eq!(broken(|parts| parts.entries.swap(1, 2)), Some(Broken::Order));
    assert_eq!(broken(|parts| parts.entries.push(parts.entries[2].clone())), Some(Broken::Order));
    assert_eq!(broken(|parts| parts.entries.swap(0, 1)), Some(Broken::Kind));
    assert_eq!(broken(|parts| drop(parts.entries.remove(0))), Some(Broken::Kind));
    assert_eq!(broken(|parts| parts.entries.insert(1, parts.entries[0].clone())), Some(Broken::Kind));
    assert_eq!(broken(|parts| parts.entries.push(Entry::of(2, vec![]))), Some(Broken::Length));
    assert_eq!(broken(|parts| drop(parts.entries.remove(1))), None);
}

#[test]
fn addresses_that_are_wrong() {
    let at = |address: u64| broken(|parts| parts.entries[2].set_address(address));
    assert_eq!(at(0x2000), None);
    for address in [0, 0x1000] {
        assert_eq!(at(address), Some(Broken::Order));
    }
    for address in [0x2001, 0x2fff, 0x3800, u64::MAX] {
        assert_eq!(at(address), Some(Broken::Multiple));
    }
    for address in [0x4000, 0x1_0000, 0x1_0000_2000, 1 << 63, u64::MAX - 0xfff] {
        assert_eq!(at(address), Some(Broken::Beyond));
    }
}

#[test]
fn parts_are_split_as_they_were_put_together() {
    let mut random = Random::seeded(9);
    let mut split = 0;
    for Call { lent, .. } in (0..2_000).map(|_| any(&mut random)) {
        for parts in [Parts::split(&lent.image), Parts::split_by_offsets(&lent.image)].into_iter().flatten() {
            assert!(parts.image() == lent.image);
            split += 1;
        }
    }
    assert!(split > 2_000, "{split}");
}
