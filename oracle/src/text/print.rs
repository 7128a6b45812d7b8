use zkir_spec::{decode, Instruction, Operands, Register, Undecodable};

use crate::refusal::Refusal;
use crate::told::Told;

use super::names::name;

/// The bytes of `Addi R15, R15, -65536` and its LF; none is longer.
pub const LONGEST_LINE: usize = 22;

/// Writes the text of the words into the front of `text`, a line each.
pub fn print(words: &[u8], text: &mut [u8]) -> Told {
    let words = words.chunks_exact(4);
    if !words.remainder().is_empty() {
        return Refusal::Malformed.into();
    }
    let mut printed = Vec::with_capacity(words.len() * LONGEST_LINE);
    for bytes in words {
        let word = u32::from_le_bytes(bytes.try_into().expect("four bytes"));
        match decode(word) {
            Ok(instruction) => print_line(&instruction, &mut printed),
            Err(Undecodable::Opcode) => return Refusal::Opcode { word }.into(),
            Err(Undecodable::Operands) => return Refusal::Operands { word }.into(),
        }
    }
    match text.get_mut(..printed.len()) {
        None => Refusal::Malformed.into(),
        Some(front) => {
            front.copy_from_slice(&printed);
            Told::written(printed.len())
        }
    }
}

fn print_line(instruction: &Instruction, printed: &mut Vec<u8>) {
    printed.extend_from_slice(name(instruction.opcode()));
    match instruction.operands() {
        Operands::R { rd, rs1, rs2 } => print_registers(&[rd, rs1, rs2], printed),
        Operands::I { rd, rs1, imm } => print_operands(&[rd, rs1], imm, printed),
        Operands::Shift { rd, rs1, shamt } => print_operands(&[rd, rs1], shamt as i64, printed),
        Operands::S { rs1, rs2, imm } => print_operands(&[rs1, rs2], imm, printed),
        Operands::B { rs1, rs2, offset } => print_operands(&[rs1, rs2], offset, printed),
        Operands::J { rd, offset } => print_operands(&[rd], offset, printed),
        Operands::Alone => {}
    }
    printed.push(b'\n');
}

fn print_operands(registers: &[Register], number: i64, printed: &mut Vec<u8>) {
    print_registers(registers, printed);
    printed.extend_from_slice(b", ");
    if number < 0 {
        printed.push(b'-');
    }
    print_number(number.unsigned_abs(), printed);
}

fn print_registers(registers: &[Register], printed: &mut Vec<u8>) {
    for (place, register) in registers.iter().enumerate() {
        printed.extend_from_slice(if place == 0 { b" R" } else { b", R" });
        print_number(register.0 as u64, printed);
    }
}

fn print_number(number: u64, printed: &mut Vec<u8>) {
    let mut digits = [0; 20];
    let mut at = digits.len();
    let mut left = number;
    loop {
        at -= 1;
        digits[at] = b'0' + (left % 10) as u8;
        left /= 10;
        if left == 0 {
            break;
        }
    }
    printed.extend_from_slice(&digits[at..]);
}
