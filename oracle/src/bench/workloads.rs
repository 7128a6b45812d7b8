//! The programs that are measured. Each goes on for ever, from a fresh state; one of them stops at Ecalls on its way.

use zkir_spec::Opcode;

use crate::assemble::{b, i, r, s, ECALL};

/// A name, a program, and how many times as long as the published Rust ours may take for it.
pub type Workload = (&'static str, Vec<u32>, f64);

/// Ours works Mulh out in columns, to be read, where the published Rust has an integer of 128 bits.
const MULH_IN_COLUMNS: f64 = 1.5;

pub fn workloads() -> [Workload; 8] {
    [
        ("ALU loop", alu(), 1.0),
        ("memory copy", copy(), 1.0),
        ("Add chain", chain(), 1.0),
        ("branches", branches(), 1.0),
        ("division", division(), 1.0),
        ("Mulh loop", products(), MULH_IN_COLUMNS),
        ("all sizes", sizes(), 1.0),
        ("Ecalls", ecalls(), 1.0),
    ]
}

/// Each kind of operation, in a loop.
pub fn alu() -> Vec<u32> {
    vec![
        i(Opcode::Addi, 1, 0, 12345),
        i(Opcode::Addi, 2, 0, -77),
        r(Opcode::Xor, 3, 1, 2),
        r(Opcode::And, 4, 3, 1),
        r(Opcode::Or, 5, 4, 2),
        i(Opcode::Slli, 6, 5, 3),
        i(Opcode::Srli, 7, 6, 5),
        r(Opcode::Mul, 8, 7, 1),
        r(Opcode::Slt, 9, 8, 2),
        r(Opcode::Sltu, 10, 8, 2),
        i(Opcode::Xori, 11, 10, 1),
        r(Opcode::Mulh, 12, 8, 7),
        i(Opcode::Andi, 13, 12, 1023),
        r(Opcode::Cmov, 14, 13, 9),
        r(Opcode::Sub, 1, 1, 14),
        b(Opcode::Beq, 0, 0, -52),
    ]
}

/// Half a kibibyte copied word by word, over and over.
pub fn copy() -> Vec<u32> {
    vec![
        i(Opcode::Addi, 1, 0, 1024),
        i(Opcode::Addi, 2, 0, 2048),
        i(Opcode::Addi, 3, 0, 128),
        i(Opcode::Lw, 4, 1, 0),
        s(Opcode::Sw, 2, 4, 0),
        i(Opcode::Addi, 1, 1, 4),
        i(Opcode::Addi, 2, 2, 4),
        i(Opcode::Addi, 3, 3, -1),
        b(Opcode::Bne, 3, 0, -20),
        b(Opcode::Beq, 0, 0, -36),
    ]
}

/// Sums of sums: in the deferred mode their limbs reach 2^30 in every turn, and carries are forced.
fn chain() -> Vec<u32> {
    let mut program = vec![i(Opcode::Addi, 1, 0, -1), i(Opcode::Addi, 2, 0, -1)];
    for _ in 0..7 {
        program.extend([r(Opcode::Add, 1, 1, 2), r(Opcode::Add, 2, 2, 1)]);
    }
    program.push(b(Opcode::Beq, 0, 0, -56));
    program
}

/// Branches by the bits of a generator, taken or not as if by chance.
fn branches() -> Vec<u32> {
    vec![
        i(Opcode::Addi, 1, 0, 1),
        i(Opcode::Addi, 5, 0, 30029),
        r(Opcode::Mul, 1, 1, 5),
        i(Opcode::Addi, 1, 1, 12345),
        i(Opcode::Srli, 2, 1, 16),
        i(Opcode::Andi, 3, 2, 1),
        b(Opcode::Beq, 3, 0, 8),
        i(Opcode::Addi, 4, 4, 1),
        i(Opcode::Andi, 3, 2, 2),
        b(Opcode::Bne, 3, 0, 8),
        i(Opcode::Xori, 4, 4, 85),
        b(Opcode::Bltu, 3, 2, 8),
        i(Opcode::Addi, 4, 4, 3),
        b(Opcode::Beq, 0, 0, -44),
    ]
}

/// The four divisions and Mulh. The divisor R3 stays odd, so it is never 0.
fn division() -> Vec<u32> {
    vec![
        i(Opcode::Addi, 1, 0, 30029),
        i(Opcode::Addi, 2, 0, -77),
        i(Opcode::Addi, 3, 0, 12345),
        r(Opcode::Mul, 4, 2, 3),
        r(Opcode::Div, 5, 4, 1),
        r(Opcode::Mulh, 6, 4, 2),
        r(Opcode::Rem, 7, 4, 3),
        r(Opcode::Divu, 8, 4, 3),
        r(Opcode::Mulh, 9, 8, 4),
        r(Opcode::Remu, 10, 4, 1),
        i(Opcode::Addi, 3, 3, 2),
        b(Opcode::Beq, 0, 0, -32),
    ]
}

/// Mulh by a number of 64 bits, each of the answer before it. Two numbers stand behind the loop, at 64 and 72.
fn products() -> Vec<u32> {
    const NUMBERS: [u32; 4] = [0x7654_3210, 0xFEDC_BA98, 0x0123_4567, 0x89AB_CDEF];
    let mut program = vec![i(Opcode::Ld, 1, 0, 64), i(Opcode::Ld, 14, 0, 72)];
    program.push(r(Opcode::Mulh, 2, 14, 1));
    program.extend((3..=14).map(|rd| r(Opcode::Mulh, rd, rd - 1, 1)));
    program.push(b(Opcode::Beq, 0, 0, -52));
    program.extend(NUMBERS);
    program
}

/// Loads and stores of one, two, four and eight bytes, signed and unsigned.
fn sizes() -> Vec<u32> {
    vec![
        i(Opcode::Addi, 1, 0, 1024),
        i(Opcode::Addi, 2, 0, -30029),
        s(Opcode::Sd, 1, 2, 0),
        i(Opcode::Lb, 3, 1, 1),
        i(Opcode::Lbu, 4, 1, 2),
        s(Opcode::Sb, 1, 4, 9),
        i(Opcode::Lh, 5, 1, 2),
        i(Opcode::Lhu, 6, 1, 8),
        s(Opcode::Sh, 1, 5, 10),
        i(Opcode::Lw, 7, 1, 8),
        s(Opcode::Sw, 1, 7, 16),
        i(Opcode::Ld, 8, 1, 16),
        s(Opcode::Sd, 1, 8, 24),
        r(Opcode::Xor, 2, 8, 3),
        b(Opcode::Beq, 0, 0, -48),
    ]
}

/// An Ecall in every eighth instruction; in the deferred mode it finds accumulated registers.
fn ecalls() -> Vec<u32> {
    vec![
        i(Opcode::Addi, 1, 1, 3),
        r(Opcode::Add, 2, 2, 1),
        r(Opcode::Xor, 3, 2, 1),
        i(Opcode::Slli, 4, 3, 2),
        r(Opcode::Sub, 5, 4, 3),
        r(Opcode::Or, 6, 5, 4),
        ECALL,
        b(Opcode::Beq, 0, 0, -28),
    ]
}
