use crate::encoding::{encode_btype, encode_itype, encode_jtype, encode_rtype, encode_stype};
use crate::{Instruction, Operands, Register};

/// Refusal 9: an operand does not fit its field.
#[derive(Clone, Copy, Debug, PartialEq, Eq)]
pub struct Unencodable;

/// The word of an instruction. "the encoder of an instruction refuses (9) what doesn't fit."
pub fn encode(instruction: &Instruction) -> Result<u32, Unencodable> {
    let opcode = instruction.opcode();
    Ok(match instruction.operands() {
        Operands::R { rd, rs1, rs2 } => encode_rtype(opcode, register(rd)?, register(rs1)?, register(rs2)?, 0),
        Operands::I { rd, rs1, imm } => encode_itype(opcode, register(rd)?, register(rs1)?, signed(imm, 17)?),
        Operands::Shift { rd, rs1, shamt } => encode_itype(opcode, register(rd)?, register(rs1)?, shift_amount(shamt)?),
        Operands::S { rs1, rs2, imm } => encode_stype(opcode, register(rs1)?, register(rs2)?, signed(imm, 17)?),
        Operands::B { rs1, rs2, offset } => encode_btype(opcode, register(rs1)?, register(rs2)?, signed(offset, 17)?),
        Operands::J { rd, offset } => encode_jtype(opcode, register(rd)?, signed(offset, 21)?),
        Operands::Alone => encode_rtype(opcode, 0, 0, 0, 0),
    })
}

fn register(register: Register) -> Result<u32, Unencodable> {
    if !register.exists() {
        return Err(Unencodable);
    }
    Ok(register.0 as u32)
}

/// A number whose signed reading in so many bits gives it back.
fn signed(number: i64, bits: u32) -> Result<u32, Unencodable> {
    let half = 1i64 << (bits - 1);
    if number < -half || number >= half {
        return Err(Unencodable);
    }
    Ok(number as u32)
}

fn shift_amount(shamt: u64) -> Result<u32, Unencodable> {
    if shamt > 63 {
        return Err(Unencodable);
    }
    Ok(shamt as u32)
}
