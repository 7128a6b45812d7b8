use crate::encoding::*;
use crate::{Instruction, Opcode, Operands, Register};

/// Why a word is no instruction.
#[derive(Clone, Copy, Debug, PartialEq, Eq)]
pub enum Undecodable {
    /// Refusal 4: "opcode 0 or over 50".
    Opcode,
    /// Refusal 5: "unused bits or shift amount".
    Operands,
}

/// The instruction of a word. "So each instruction has one word."
#[inline(always)]
pub fn decode(word: u32) -> Result<Instruction, Undecodable> {
    let opcode = Opcode::from_u8(extract_opcode(word) as u8).ok_or(Undecodable::Opcode)?;
    Instruction::read(opcode, word).ok_or(Undecodable::Operands)
}

#[inline]
fn register(number: u32) -> Register {
    Register(number as u8)
}

/// "R: rd 7-10, rs1 11-14, rs2 15-18, funct 19-31." "A nonzero funct [...] is refused (5)."
#[inline(always)]
pub(crate) fn three_registers(word: u32) -> Option<Operands> {
    let [rd, rs1, rs2] = [extract_rd(word), extract_rs1(word), extract_rs2(word)].map(register);
    (extract_funct(word) == 0).then_some(Operands::R { rd, rs1, rs2 })
}

/// "I: rd, rs1, immediate 15-31."
#[inline(always)]
pub(crate) fn immediate(word: u32) -> Option<Operands> {
    let [rd, rs1] = [extract_rd(word), extract_rs1(word)].map(register);
    Some(Operands::I { rd, rs1, imm: extract_imm_signed(word) as i64 })
}

/// "a shift amount over 63 [...] is refused (5)."
#[inline(always)]
pub(crate) fn shift_amount(word: u32) -> Option<Operands> {
    let [rd, rs1] = [extract_rd(word), extract_rs1(word)].map(register);
    let shamt = extract_imm(word) as u64;
    (shamt <= 63).then_some(Operands::Shift { rd, rs1, shamt })
}

/// "S and B: rs1 at 7-10, rs2 at 11-14, immediate 15-31."
#[inline(always)]
pub(crate) fn store(word: u32) -> Option<Operands> {
    let [rs1, rs2] = [extract_stype_rs1(word), extract_stype_rs2(word)].map(register);
    Some(Operands::S { rs1, rs2, imm: extract_imm_signed(word) as i64 })
}

#[inline(always)]
pub(crate) fn branch(word: u32) -> Option<Operands> {
    let [rs1, rs2] = [extract_stype_rs1(word), extract_stype_rs2(word)].map(register);
    Some(Operands::B { rs1, rs2, offset: extract_imm_signed(word) as i64 })
}

/// "J: rd, offset 11-31."
#[inline(always)]
pub(crate) fn jump(word: u32) -> Option<Operands> {
    Some(Operands::J { rd: register(extract_rd(word)), offset: extract_offset_signed(word) as i64 })
}

/// "an Ecall or Ebreak with bits 7-31 not zero is refused (5)."
#[inline(always)]
pub(crate) fn nothing(word: u32) -> Option<()> {
    (word >> RD_SHIFT == 0).then_some(())
}
