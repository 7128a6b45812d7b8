//! Words of the machine, built from document 01's fields, and states, programs and images for the tests.
#![allow(dead_code)] // each test file uses some of it

use std::path::PathBuf;

use yokeglimmer::{Mode, Refusal, Register, State};

/// A page of memory, as images hold it.
pub const PAGE_BYTES: usize = 4096;

pub const MODES: [Mode; 2] = [Mode::Plain, Mode::Deferred];

/// A path from the repository's root.
pub fn repository(path: &str) -> PathBuf {
    PathBuf::from(concat!(env!("CARGO_MANIFEST_DIR"), "/..")).join(path)
}

pub const ADD: u32 = 1;
pub const MUL: u32 = 3;
pub const DIV: u32 = 5;
pub const ADDI: u32 = 9;
pub const SLLI: u32 = 19;
pub const LW: u32 = 35;
pub const SW: u32 = 39;
pub const JAL: u32 = 47;
pub const ECALL: u32 = 49;
pub const EBREAK: u32 = 50;

pub fn r(opcode: u32, rd: u32, rs1: u32, rs2: u32) -> u32 {
    opcode | rd << 7 | rs1 << 11 | rs2 << 15
}

/// Kinds I, S and B have their registers at the same two places: rd and rs1, or rs1 and rs2.
pub fn i(opcode: u32, at7: u32, at11: u32, immediate: i32) -> u32 {
    opcode | at7 << 7 | at11 << 11 | (immediate as u32) << 15
}

pub fn j(opcode: u32, rd: u32, offset: i32) -> u32 {
    opcode | rd << 7 | (offset as u32) << 11
}

/// Memory of that length with the words at its start.
pub fn memory(length: usize, words: &[u32]) -> Vec<u8> {
    let mut bytes: Vec<u8> = words.iter().flat_map(|word| word.to_le_bytes()).collect();
    assert!(bytes.len() <= length, "the program doesn't fit");
    bytes.resize(length, 0);
    bytes
}

/// A fresh state at pc 0 but for R1.
pub fn with_r1(value: u64) -> State {
    let mut state = State::new(0);
    state.set_register(1, Register::Whole(value)).expect("R1 takes any whole value");
    state
}

/// Steps that are refused, over 64 bytes of memory: R1's value, the pc, the word at address 0, and the refusal.
pub fn refusals() -> [(u64, u64, u32, Refusal); 11] {
    let (division, beyond, misaligned) = (r(DIV, 2, 1, 0), i(LW, 2, 1, 4), i(SW, 1, 1, 0));
    let (shift, call_with_bits) = (i(SLLI, 1, 1, 64), ECALL | 1 << 31);
    [
        (7, 0, division, Refusal::DivisorZero { pc: 0 }),
        (60, 0, beyond, Refusal::Beyond { missing: 64, length: 64 }),
        (u64::MAX - 7, 0, beyond, Refusal::Beyond { missing: u64::MAX - 3, length: 64 }),
        (1, 0, misaligned, Refusal::Misaligned { address: 1 }),
        (0, 0, 0, Refusal::BadOpcode { word: 0 }),
        (0, 0, 51 | 1 << 31, Refusal::BadOpcode { word: 0x80000033 }),
        (0, 0, shift, Refusal::UnusedBits { word: shift }),
        (0, 0, call_with_bits, Refusal::UnusedBits { word: call_with_bits }),
        (0, 2, 0, Refusal::PcMisaligned { pc: 2 }),
        (0, 64, 0, Refusal::PcBeyond { pc: 64 }),
        (0, u64::MAX - 3, 0, Refusal::PcBeyond { pc: u64::MAX - 3 }),
    ]
}

/// Seeded random numbers (splitmix64).
pub struct Random(pub u64);

impl Random {
    pub fn draw(&mut self) -> u64 {
        self.0 = self.0.wrapping_add(0x9e3779b97f4a7c15);
        let mut z = self.0;
        z = (z ^ (z >> 30)).wrapping_mul(0xbf58476d1ce4e5b9);
        z = (z ^ (z >> 27)).wrapping_mul(0x94d049bb133111eb);
        z ^ (z >> 31)
    }

    pub fn below(&mut self, limit: u64) -> u64 {
        self.draw() % limit
    }
}

/// Of a generated program.
pub const WORDS: usize = 32;

/// A valid word: any opcode, registers R0 to R7, small immediates; now and then a raw word, mostly refused.
pub fn word(random: &mut Random) -> u32 {
    if random.below(40) == 0 {
        return random.draw() as u32;
    }
    let opcode = match random.below(8) {
        0 => 1 + random.below(50) as u32,
        1..=4 => [1, 2, 9][random.below(3) as usize], // Add, Sub and Addi have deferred forms
        _ => 1 + random.below(30) as u32,
    };
    let [a, b, c] = [0; 3].map(|_| random.below(8) as u32);
    match opcode {
        47 => opcode | a << 7 | (4 * random.below(16) as u32) << 11,
        49 | 50 => opcode,
        19..=21 => i(opcode, a, b, random.below(64) as i32),
        9 => i(opcode, a, b, random.below(1 << 17) as i32),
        13..=15 | 31..=46 | 48 => i(opcode, a, b, 4 * random.below(32) as i32),
        _ => opcode | a << 7 | b << 11 | c << 15,
    }
}

pub fn start(random: &mut Random) -> State {
    let mut state = State::new(0);
    for n in 1..8 {
        let value = random.draw() >> random.below(64);
        state.set_register(n, Register::Whole(value)).expect("any whole value");
        state.set_bound(n, random.below(65) as u8).expect("at most 64");
    }
    state
}

/// Any state: every register whole or accumulated.
pub fn any_state(random: &mut Random) -> State {
    let limit = 1 << 30;
    let mut state = State::new(random.draw());
    state.set_halted(random.below(2) == 1);
    for n in 1..16 {
        let register = match random.below(2) {
            0 => Register::Whole(random.draw()),
            _ => Register::Accumulated { low: random.below(limit), high: random.below(limit) },
        };
        state.set_register(n, register).expect("well-formed");
        state.set_bound(n, random.below(65) as u8).expect("well-formed");
    }
    state
}

/// Memory of that many pages: zeros, all drawn, or with one byte that is not zero.
pub fn any_pages(pages: usize, random: &mut Random) -> Vec<u8> {
    let mut memory = vec![0; pages * PAGE_BYTES];
    for page in memory.chunks_mut(PAGE_BYTES) {
        match random.below(5) {
            0 => (),
            1 => page.iter_mut().for_each(|byte| *byte = random.draw() as u8),
            2 => page[0] = 1,
            3 => page[PAGE_BYTES - 1] = 128,
            _ => page[random.below(PAGE_BYTES as u64) as usize] = 1 + random.below(255) as u8,
        }
    }
    memory
}

/// The image, as docs/MACHINE.md has it.
pub fn image_of(state: &State, memory: &[u8]) -> Vec<u8> {
    let pages = (0_u64..).step_by(PAGE_BYTES).zip(memory.chunks(PAGE_BYTES));
    let held = pages.filter(|(_, page)| *page != [0; PAGE_BYTES]);
    let bodies = held.map(|(address, page)| (2, [&address.to_le_bytes()[..], page].concat()));
    let bodies: Vec<(u32, Vec<u8>)> = std::iter::once((1, state.to_bytes().to_vec())).chain(bodies).collect();
    let (mut table, mut offset) = (vec![bodies.len() as u32], 4 + 12 * bodies.len() as u32);
    for (kind, body) in &bodies {
        table.extend([*kind, offset, body.len() as u32]);
        offset += body.len() as u32;
    }
    let mut image: Vec<u8> = table.into_iter().flat_map(u32::to_le_bytes).collect();
    bodies.iter().for_each(|(_, body)| image.extend_from_slice(body));
    image
}
