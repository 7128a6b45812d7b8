//! Refusal 2 names the first byte that is missing: each load and store at the ends of memory, by a run and by a step.
#![cfg(feature = "step")]

mod common;

use common::{i, memory, with_r1, LW, MODES};
use yokeglimmer::{run, step, Checks, Refusal, Stepped, Stop};

/// Lb, Lbu, Lh, Lhu, Lw, Ld, Sb, Sh, Sw and Sd, each with the bytes that it takes.
const ACCESSES: [(u32, u64); 10] =
    [(31, 1), (32, 1), (33, 2), (34, 2), (35, 4), (36, 8), (37, 1), (38, 2), (39, 4), (40, 8)];

/// An access at R1's address.
fn access(opcode: u32) -> u32 {
    let [at7, at11] = if opcode < 37 { [2, 1] } else { [1, 2] };
    i(opcode, at7, at11, 0)
}

/// An access at that address, in memory of that length, is served.
fn served(opcode: u32, length: usize, address: u64) {
    for mode in MODES {
        let answer = run(&mut with_r1(address), &mut memory(length, &[access(opcode)]), 1, mode);
        assert_eq!((answer.stop, answer.steps), (Stop::Fuel, 1), "opcode {opcode} at {address} in {length} bytes");
    }
}

/// Run or taken as a step it is refused, and changes nothing.
fn refused(opcode: u32, length: usize, address: u64, missing: u64) {
    let (before, start) = (memory(length, &[access(opcode)]), with_r1(address));
    let refusal = Refusal::Beyond { missing, length: length as u64 };
    for mode in MODES {
        let (mut state, mut lent) = (start.clone(), before.clone());
        let answer = run(&mut state, &mut lent, 1, mode);
        assert_eq!(answer.stop, Stop::Refused(refusal), "opcode {opcode} at {address} in {length} bytes");
        assert_eq!((&state, &lent), (&start, &before));
        let stepped = step(&mut state, &mut lent, mode, &mut Checks::none());
        assert_eq!(stepped, Stepped::Refused(refusal), "opcode {opcode} at {address} in {length} bytes");
        assert_eq!((&state, &lent), (&start, &before));
    }
}

#[test]
fn corners_of_every_size() {
    for (opcode, size) in ACCESSES {
        served(opcode, 16, 16 - size);
        refused(opcode, 15 + size as usize, 16, 15 + size);
        refused(opcode, 16, 16, 16);
        refused(opcode, 16, size.wrapping_neg(), size.wrapping_neg());
    }
    for length in 4..8 {
        refused(36, length, 0, length as u64);
        refused(40, length, 0, length as u64);
    }
}

/// By looking at one byte after another.
fn first_missing(lent: &[u8], address: u64) -> u64 {
    let is_missing = |byte: &u64| usize::try_from(*byte).map_or(true, |at| lent.get(at).is_none());
    (address..=u64::MAX).find(is_missing).expect("memory ends before 2^64")
}

#[test]
fn every_address_in_and_behind_memories_of_every_length() {
    for (opcode, size) in ACCESSES {
        for length in 4..34 {
            for address in (0..50).chain(u64::MAX - 20..=u64::MAX).filter(|address| address % size == 0) {
                match first_missing(&memory(length, &[]), address) {
                    missing if missing - address < size => refused(opcode, length, address, missing),
                    _ => served(opcode, length, address),
                }
            }
        }
    }
}

#[test]
fn what_a_refusal_says() {
    let answer = run(&mut with_r1(60), &mut memory(62, &[access(LW)]), 1, MODES[0]);
    assert_eq!(answer.to_string(), "refused 2: byte 62 is beyond the memory's 62; steps: 0");
    let refusal = answer.or_refused().expect_err("refused").refusal;
    assert_eq!((refusal.number(), refusal.particular()), (2, 62));
}
