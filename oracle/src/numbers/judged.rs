//! Values and notes, answered by the published `execute` on the instruction that computes them.

use zkir_runtime::execute::execute;
use zkir_runtime::memory::Memory;
use zkir_runtime::state::{Held, VMState};
use zkir_spec::{Opcode, Register};

use super::instruction;

/// R3 and its note after an instruction over R1 and R2, or over R1 and the immediate.
fn executed(opcode: Opcode, values: [u64; 2], notes: [u64; 3], imm: u64, memory: &mut [u8]) -> (u64, u64) {
    let mut state = VMState::fresh();
    state.set_unchecked(Register(1), Held::Whole(values[0]), notes[0] as u32);
    state.set_unchecked(Register(2), Held::Whole(values[1]), notes[1] as u32);
    state.set_unchecked(Register(3), Held::Whole(0), notes[2] as u32);
    let instruction = instruction(opcode, [3, 1, 2], imm);
    execute(&instruction, &mut state, &mut Memory::lent(memory), None).expect("neither divides by 0 nor leaves memory");
    (state.read_reg(Register(3)), state.read_bound(Register(3)).max_bits as u64)
}

pub fn value(opcode: Opcode, operands: &[u64]) -> u64 {
    executed(opcode, [operands[0], operands[1]], [0; 3], 0, &mut []).0
}

/// The note of a result from its operands' notes; the operands are such that division is not refused.
pub fn note(opcode: Opcode, notes: &[u64]) -> u64 {
    executed(opcode, [1, 1], [notes[0], notes[1], 0], 0, &mut []).1
}

/// The note after a move that happens.
pub fn moved(source: u64, destination: u64) -> u64 {
    executed(Opcode::Cmov, [1, 1], [source, 0, destination], 0, &mut []).1
}

/// The first operand shifted by the second, and the note of a value with as many bits shifted so.
pub fn shifted(opcode: Opcode, operands: &[u64]) -> (u64, u64) {
    executed(opcode, [operands[0], 0], [operands[0].min(64), 0, 0], operands[1], &mut [])
}

/// What a load makes of these bytes, and what it notes.
pub fn loaded(opcode: Opcode, bytes: u64) -> (u64, u64) {
    executed(opcode, [0, 0], [0; 3], 0, &mut bytes.to_le_bytes())
}

pub fn load_of(size: u64) -> Opcode {
    match size {
        1 => Opcode::Lb,
        2 => Opcode::Lh,
        4 => Opcode::Lw,
        _ => Opcode::Ld,
    }
}
