//! Each instruction's form, for what is said of a bad line.

use std::ops::RangeInclusive;

use crate::mistake::Mistake;

/// What an instruction's operands are.
#[derive(Clone, Copy, PartialEq, Eq)]
pub(crate) enum Form {
    /// Three registers.
    R,
    /// Two registers and a number.
    I,
    /// Two registers and a number from 0 to 63.
    Shift,
    /// Two registers and an offset, from the instruction itself.
    B,
    /// A register and an offset, from the instruction itself.
    J,
    /// None.
    Alone,
}

impl Form {
    #[rustfmt::skip]
    pub(crate) fn of(name: &[u8]) -> Option<Form> {
        match name {
            b"Add" | b"Sub" | b"Mul" | b"Mulh" | b"Div" | b"Divu" | b"Rem" | b"Remu" | b"And" | b"Or" | b"Xor" | b"Sll"
            | b"Srl" | b"Sra" | b"Slt" | b"Sltu" | b"Sge" | b"Sgeu" | b"Seq" | b"Sne" | b"Cmov" | b"Cmovz" | b"Cmovnz"
                => Some(Form::R),
            b"Addi" | b"Andi" | b"Ori" | b"Xori" | b"Lb" | b"Lbu" | b"Lh" | b"Lhu" | b"Lw" | b"Ld" | b"Jalr" | b"Sb"
            | b"Sh" | b"Sw" | b"Sd" => Some(Form::I),
            b"Slli" | b"Srli" | b"Srai" => Some(Form::Shift),
            b"Beq" | b"Bne" | b"Blt" | b"Bge" | b"Bltu" | b"Bgeu" => Some(Form::B),
            b"Jal" => Some(Form::J),
            b"Ecall" | b"Ebreak" => Some(Form::Alone),
            _ => None,
        }
    }

    /// How many registers come first.
    pub(crate) fn registers(self) -> usize {
        match self {
            Form::R => 3,
            Form::I | Form::Shift | Form::B => 2,
            Form::J => 1,
            Form::Alone => 0,
        }
    }

    /// Whether a number comes last.
    pub(crate) fn has_number(self) -> bool {
        !matches!(self, Form::R | Form::Alone)
    }

    /// Whether a label means its distance from the instruction.
    pub(crate) fn is_jump(self) -> bool {
        matches!(self, Form::B | Form::J)
    }

    /// That the number fits its field.
    pub(crate) fn check(self, value: i64) -> Result<(), Mistake> {
        let (field, mistake): (RangeInclusive<i64>, Mistake) = match self {
            Form::J => (-1_048_576..=1_048_575, Mistake::LargeOffset { value }),
            Form::Shift => (0..=63, Mistake::LargeAmount { value }),
            _ => (-65_536..=65_535, Mistake::LargeImmediate { value }),
        };
        if field.contains(&value) {
            return Ok(());
        }
        Err(mistake)
    }
}
