//! Values at which something changes.

use zkir_runtime::state::Held;
use zkir_spec::Opcode;

use crate::machine::Mode;
use crate::random::Random;

#[rustfmt::skip]
pub const VALUES: [u64; 36] = [
    0, 1, 2, 3, 7, 8, 20, 39, 40, 63, 64, 0x7f, 0x80, 0xff, 0x7fff, 0x8000, 0xffff,
    (1 << 20) - 1, 1 << 20, (1 << 30) - 1, 1 << 30, (1 << 31) - 1, 1 << 31, (1 << 32) - 1, 1 << 32,
    (1 << 39) - 1, 1 << 39, (1 << 40) - 8, (1 << 40) - 1, 1 << 40, (1 << 40) + 1,
    (1 << 63) - 1, 1 << 63, (1 << 63) + 1, u64::MAX - 7, u64::MAX,
];

pub const LIMBS: [u64; 8] =
    [0, 1, (1 << 20) - 1, 1 << 20, 1 << 29, (1 << 30) - (1 << 20), (1 << 30) - 2, (1 << 30) - 1];

pub const BOUNDS: [u8; 12] = [0, 1, 7, 8, 20, 24, 39, 40, 41, 62, 63, 64];

pub const IMMEDIATES: [i32; 16] = [0, 1, -1, 2, -2, 3, 4, -4, 7, 8, 63, 64, 0x7fff, 65535, -65535, -65536];

/// The loads and stores, each with the bytes that it takes.
#[rustfmt::skip]
pub const ACCESSES: [(Opcode, u64); 10] = [
    (Opcode::Lb, 1), (Opcode::Lbu, 1), (Opcode::Lh, 2), (Opcode::Lhu, 2), (Opcode::Lw, 4), (Opcode::Ld, 8),
    (Opcode::Sb, 1), (Opcode::Sh, 2), (Opcode::Sw, 4), (Opcode::Sd, 8),
];

/// For an access of so many bytes, a memory's length and the address: its last byte is the last that there is; is missing; the
/// address is the length; the access ends at 2^64; there are fewer bytes than it takes; there are none.
fn ends(size: u64) -> [(usize, u64); 6] {
    let bytes = size as usize;
    [(16, 16 - size), (15 + bytes, 16), (16, 16), (16, size.wrapping_neg()), (bytes - 1, 0), (0, 0)]
}

/// Each load and store in both modes at each of its ends: mode, opcode, the memory's length, the address.
pub fn at_the_ends() -> impl Iterator<Item = (Mode, Opcode, usize, u64)> {
    let accesses = Mode::BOTH.into_iter().flat_map(|mode| ACCESSES.map(|access| (mode, access)));
    accesses.flat_map(|(mode, (opcode, size))| ends(size).map(|(length, address)| (mode, opcode, length, address)))
}

/// Whole corner values, and in deferred mode all pairs of corner limbs.
pub fn operands(deferred: bool) -> Vec<Held> {
    let mut all: Vec<Held> = VALUES.into_iter().map(Held::Whole).collect();
    if deferred {
        all.extend(LIMBS.into_iter().flat_map(|low| LIMBS.map(|high| Held::Accumulated([low, high]))));
    }
    all
}

/// Which of rd, rs1 and rs2 are the same register, and which are R0: the fifteen ways, with R1 to R3 for the others.
pub fn sharings() -> Vec<[u32; 3]> {
    let mut ways = Vec::new();
    for number in 0..64 {
        let way = [number / 16, number / 4 % 4, number % 4];
        let mut highest = 0;
        let named_in_order = way.iter().all(|&register| {
            let next = register <= highest + 1;
            highest = highest.max(register);
            next
        });
        if named_in_order {
            ways.push(way);
        }
    }
    ways
}

pub fn value(random: &mut Random) -> u64 {
    match random.below(4) {
        0 => random.draw() >> random.below(64),
        1 => random.below(100),
        2 => random.pick(&VALUES).wrapping_add(random.below(5)).wrapping_sub(2),
        _ => random.pick(&VALUES),
    }
}

pub fn limb(random: &mut Random) -> u64 {
    if random.chance(2) {
        return random.pick(&LIMBS);
    }
    (random.draw() >> 34) >> random.below(30)
}

pub fn held(random: &mut Random, deferred: bool) -> Held {
    if deferred && random.chance(2) {
        return Held::Accumulated([limb(random), limb(random)]);
    }
    Held::Whole(value(random))
}

pub fn bound(random: &mut Random) -> u8 {
    if random.chance(2) {
        return random.pick(&BOUNDS);
    }
    random.below(65) as u8
}
