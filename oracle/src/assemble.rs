//! Words, put together by the published raw encoders.

use zkir_spec::encoding::{encode_btype, encode_itype, encode_jtype, encode_rtype, encode_stype};
use zkir_spec::encoding::{is_btype, is_itype, is_jtype, is_stype};
use zkir_spec::Opcode;

pub const ECALL: u32 = Opcode::Ecall as u32;
pub const EBREAK: u32 = Opcode::Ebreak as u32;

pub fn r(opcode: Opcode, rd: u32, rs1: u32, rs2: u32) -> u32 {
    encode_rtype(opcode, rd, rs1, rs2, 0)
}

pub fn i(opcode: Opcode, rd: u32, rs1: u32, imm: i32) -> u32 {
    encode_itype(opcode, rd, rs1, imm as u32)
}

pub fn s(opcode: Opcode, rs1: u32, rs2: u32, imm: i32) -> u32 {
    encode_stype(opcode, rs1, rs2, imm as u32)
}

pub fn b(opcode: Opcode, rs1: u32, rs2: u32, offset: i32) -> u32 {
    encode_btype(opcode, rs1, rs2, offset as u32)
}

pub fn jal(rd: u32, offset: i32) -> u32 {
    encode_jtype(Opcode::Jal, rd, offset as u32)
}

/// A valid word of any opcode, of those of the operands that it has.
pub fn word(opcode: Opcode, [rd, rs1, rs2]: [u32; 3], imm: i32) -> u32 {
    let number = opcode as u32;
    match opcode {
        Opcode::Ecall | Opcode::Ebreak => number,
        Opcode::Slli | Opcode::Srli | Opcode::Srai => i(opcode, rd, rs1, imm & 63),
        _ if is_itype(number) => i(opcode, rd, rs1, imm),
        _ if is_stype(number) => s(opcode, rs1, rs2, imm),
        _ if is_btype(number) => b(opcode, rs1, rs2, imm),
        _ if is_jtype(number) => jal(rd, imm),
        _ => r(opcode, rd, rs1, rs2),
    }
}

/// The bytes of a program, followed by zeros up to a length (or cut to it).
pub fn image(program: &[u32], length: usize) -> Vec<u8> {
    let mut bytes: Vec<u8> = program.iter().flat_map(|word| word.to_le_bytes()).collect();
    bytes.resize(length, 0);
    bytes
}
