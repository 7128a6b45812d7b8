//! The line of an instruction.

use zkir_spec::{encode, Instruction, Opcode, Operands, Register};

use super::cursor::Cursor;
use super::names::{named, Form};
use super::sum::sum;

/// "Parentheses nest at most sixteen deep".
pub const NESTING: u32 = 16;

/// The word of a line with no spaces around it. `label` tells a label's address, and the instruction's own is given.
pub fn instruction(line: &[u8], address: i64, label: impl Fn(&[u8]) -> Option<i64>) -> Option<u32> {
    let text = &mut Cursor::new(line);
    let (opcode, form) = named(text.take_word())?;
    let distance = |name: &[u8]| label(name).map(|there| there - address);
    let operands = match form {
        Form::Alone => Operands::Alone,
        Form::Registers => Operands::R { rd: register(text)?, rs1: next_register(text)?, rs2: next_register(text)? },
        Form::Immediate => Operands::I { rd: register(text)?, rs1: next_register(text)?, imm: next_sum(text, &label)? },
        Form::Shift => {
            let (rd, rs1) = (register(text)?, next_register(text)?);
            Operands::Shift { rd, rs1, shamt: next_sum(text, &label)?.try_into().ok()? }
        }
        Form::Store => Operands::S { rs1: register(text)?, rs2: next_register(text)?, imm: next_sum(text, &label)? },
        Form::Branch => {
            let (rs1, rs2) = (register(text)?, next_register(text)?);
            Operands::B { rs1, rs2, offset: next_sum(text, &distance)? }
        }
        Form::Jump => Operands::J { rd: register(text)?, offset: next_sum(text, &distance)? },
    };
    text.is_at_end().then_some(())?;
    word(opcode, operands)
}

fn word(opcode: Opcode, operands: Operands) -> Option<u32> {
    encode(&Instruction::from_parts(opcode, operands)?).ok()
}

fn comma(text: &mut Cursor) -> Option<()> {
    text.skip_spaces();
    text.takes(b',').then_some(())
}

fn next_register(text: &mut Cursor) -> Option<Register> {
    comma(text)?;
    register(text)
}

fn next_sum(text: &mut Cursor, label: &impl Fn(&[u8]) -> Option<i64>) -> Option<i64> {
    comma(text)?;
    sum(text, label, NESTING)
}

/// "registers R0 to R15, all exactly, no R00".
fn register(text: &mut Cursor) -> Option<Register> {
    text.skip_spaces();
    match *text.take_word() {
        [b'R', digit @ b'0'..=b'9'] => Some(Register(digit - b'0')),
        [b'R', b'1', digit @ b'0'..=b'5'] => Some(Register(10 + digit - b'0')),
        _ => None,
    }
}
