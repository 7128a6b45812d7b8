//! The 400 bytes of a state. "Every number in them is little-endian. The state is 400 bytes: pc (8), halt mark 0 or 1, 7
//! zeros, then sixteen records of 24: kind 0 or 1, bound, 6 zeros, two 8-byte numbers (whole value and 0, or limbs)."

use zkir_runtime::state::{Held, VMState};
use zkir_spec::Register;

pub const STATE_BYTES: usize = 400;
pub const HEADER_BYTES: usize = 16;
pub const RECORD_BYTES: usize = 24;
pub const ANSWER_BYTES: usize = 24;

/// The state of the bytes; none where document 01 forbids them.
pub fn read_state(bytes: &[u8]) -> Option<VMState> {
    if bytes.len() != STATE_BYTES || bytes[8] > 1 || bytes[9..HEADER_BYTES] != [0; 7] {
        return None;
    }
    let mut state = VMState::fresh();
    state.pc = number(bytes, 0);
    state.halted = bytes[8] == 1;
    for (register, record) in bytes[HEADER_BYTES..].chunks_exact(RECORD_BYTES).enumerate() {
        state.set_unchecked(Register(register as u8), read_held(record)?, record[1] as u32);
    }
    state.is_well_formed().then_some(state)
}

fn read_held(record: &[u8]) -> Option<Held> {
    if record[2..8] != [0; 6] {
        return None;
    }
    let numbers = [number(record, 8), number(record, 16)];
    match record[0] {
        0 if numbers[1] == 0 => Some(Held::Whole(numbers[0])),
        1 => Some(Held::Accumulated(numbers)),
        _ => None,
    }
}

pub fn write_state(state: &VMState, bytes: &mut [u8]) {
    bytes.fill(0);
    put_number(bytes, 0, state.pc);
    bytes[8] = state.halted as u8;
    for (index, record) in bytes[HEADER_BYTES..].chunks_exact_mut(RECORD_BYTES).enumerate() {
        let register = Register(index as u8);
        record[1] = state.read_bound(register).max_bits as u8;
        match state.register_states.get(register) {
            Held::Whole(value) => put_number(record, 8, value),
            Held::Accumulated([low, high]) => {
                record[0] = 1;
                put_number(record, 8, low);
                put_number(record, 16, high);
            }
        }
    }
}

/// "The answer is three 8-byte numbers: code, steps, particular".
pub fn write_answer(bytes: &mut [u8], numbers: [u64; 3]) {
    for (index, number) in numbers.into_iter().enumerate() {
        put_number(bytes, 8 * index, number);
    }
}

/// The 8-byte number at a place.
pub fn number(bytes: &[u8], at: usize) -> u64 {
    u64::from_le_bytes(bytes[at..at + 8].try_into().expect("eight bytes"))
}

pub fn put_number(bytes: &mut [u8], at: usize, number: u64) {
    bytes[at..at + 8].copy_from_slice(&number.to_le_bytes());
}

/// Where a register's record begins.
pub fn record_at(register: usize) -> usize {
    HEADER_BYTES + RECORD_BYTES * register
}
