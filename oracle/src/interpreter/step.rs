//! One step: "tests [...] 6, 7, 4, 5, then 1, or 3 and 2".

use zkir_spec::Opcode;

use crate::refusal::{Refusal, Stop};

use super::arithmetic::*;
use super::fields::{first, has_operands, immediate, offset, second};
use super::forms::{Step, Stepped};
use super::limbs;
use super::memory::fetch;
use super::state::State;

/// The next pc; or the stop, before which Ecall and Ebreak have not moved the pc.
#[inline(always)]
pub fn step<const DEFERRED: bool>(state: &mut State, memory: &mut [u8], pc: u64) -> Stepped {
    let word = fetch(memory, pc).map_err(Stop::Refused)?;
    let Some(opcode) = Opcode::from_u8(word as u8 & 127) else {
        return Err(Stop::Refused(Refusal::Opcode { word }));
    };
    Step::<DEFERRED> { state, memory, pc, word }.obey(opcode)
}

impl<const DEFERRED: bool> Step<'_, DEFERRED> {
    /// "Seq, Sne, Beq, Bne, the moves, division, Mulh and addresses use all 64; the other instructions" the low 40 bits.
    #[inline(always)]
    fn obey(&mut self, opcode: Opcode) -> Stepped {
        match opcode {
            Opcode::Add => self.add(),
            Opcode::Sub => self.sub(),
            Opcode::Mul => self.by_registers(mul),
            Opcode::Mulh => self.by_registers(mulh),
            Opcode::Div => self.by_division(|a, b| (a as i64).wrapping_div(b as i64) as u64),
            Opcode::Divu => self.by_division(|a, b| a / b),
            Opcode::Rem => self.by_division(|a, b| (a as i64).wrapping_rem(b as i64) as u64),
            Opcode::Remu => self.by_division(|a, b| a % b),
            Opcode::Addi => self.addi(),
            Opcode::And => self.by_registers(and),
            Opcode::Or => self.by_registers(or),
            Opcode::Xor => self.by_registers(xor),
            Opcode::Andi => self.by_immediate(and),
            Opcode::Ori => self.by_immediate(or),
            Opcode::Xori => self.by_immediate(xor),
            Opcode::Sll => self.by_registers(|a, b| shift_left(a, b.value as u32 % 64)),
            Opcode::Srl => self.by_registers(|a, b| shift_right(a, b.value as u32 % 64)),
            Opcode::Sra => self.by_registers(|a, b| shift_right_signed(a, b.value as u32 % 64)),
            Opcode::Slli => self.by_shift_amount(shift_left),
            Opcode::Srli => self.by_shift_amount(shift_right),
            Opcode::Srai => self.by_shift_amount(shift_right_signed),
            Opcode::Slt => self.by_registers(|a, b| truth(signed(a.value) < signed(b.value))),
            Opcode::Sltu => self.by_registers(|a, b| truth(cut(a.value) < cut(b.value))),
            Opcode::Sge => self.by_registers(|a, b| truth(signed(a.value) >= signed(b.value))),
            Opcode::Sgeu => self.by_registers(|a, b| truth(cut(a.value) >= cut(b.value))),
            Opcode::Seq => self.by_registers(|a, b| truth(a.value == b.value)),
            Opcode::Sne => self.by_registers(|a, b| truth(a.value != b.value)),
            Opcode::Cmov | Opcode::Cmovnz => self.by_move(|condition| condition != 0),
            Opcode::Cmovz => self.by_move(|condition| condition == 0),
            Opcode::Lb => self.by_load(8, |bytes| i8::from_le_bytes(bytes) as u64),
            Opcode::Lbu => self.by_load(8, |bytes| u8::from_le_bytes(bytes) as u64),
            Opcode::Lh => self.by_load(16, |bytes| i16::from_le_bytes(bytes) as u64),
            Opcode::Lhu => self.by_load(16, |bytes| u16::from_le_bytes(bytes) as u64),
            Opcode::Lw => self.by_load(32, |bytes| u32::from_le_bytes(bytes) as u64),
            Opcode::Ld => self.by_load(40, u64::from_le_bytes),
            Opcode::Sb => self.by_store(|value| (value as u8).to_le_bytes()),
            Opcode::Sh => self.by_store(|value| (value as u16).to_le_bytes()),
            Opcode::Sw => self.by_store(|value| (value as u32).to_le_bytes()),
            Opcode::Sd => self.by_store(u64::to_le_bytes),
            Opcode::Beq => self.by_branch(|a, b| a == b),
            Opcode::Bne => self.by_branch(|a, b| a != b),
            Opcode::Blt => self.by_branch(|a, b| signed(a) < signed(b)),
            Opcode::Bge => self.by_branch(|a, b| signed(a) >= signed(b)),
            Opcode::Bltu => self.by_branch(|a, b| cut(a) < cut(b)),
            Opcode::Bgeu => self.by_branch(|a, b| cut(a) >= cut(b)),
            Opcode::Jal => self.jump(self.pc.wrapping_add(offset(self.word))),
            Opcode::Jalr => self.jump_to_register(),
            Opcode::Ecall => self.ecall(),
            Opcode::Ebreak => self.alone().and(Err(Stop::Ebreak)),
        }
    }

    #[inline]
    fn add(&mut self) -> Stepped {
        if !DEFERRED {
            return self.by_registers(add);
        }
        let [rd, rs1, rs2] = self.three_registers()?;
        limbs::add(self.state, rd, rs1, rs2);
        self.next()
    }

    #[inline]
    fn sub(&mut self) -> Stepped {
        if !DEFERRED {
            return self.by_registers(sub);
        }
        let [rd, rs1, rs2] = self.three_registers()?;
        limbs::subtract(self.state, rd, rs1, rs2);
        self.next()
    }

    #[inline]
    fn addi(&mut self) -> Stepped {
        if !DEFERRED {
            return self.by_immediate(add);
        }
        limbs::add_immediate(self.state, first(self.word), second(self.word), immediate(self.word));
        self.next()
    }

    /// "Ecall normalises R1 to R15".
    fn ecall(&mut self) -> Stepped {
        self.alone()?;
        (1..16).for_each(|register| self.state.normalise::<DEFERRED>(register));
        Err(Stop::Ecall)
    }

    /// "an Ecall or Ebreak with bits 7-31 not zero is refused (5)."
    fn alone(&self) -> Stepped {
        let word = self.word;
        if has_operands(word) {
            return self.refuse(Refusal::Operands { word });
        }
        self.next()
    }
}
