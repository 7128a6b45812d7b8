//! The 400 bytes of a state: "pc (8), halt mark 0 or 1, 7 zeros, then sixteen records of 24: kind 0 or 1, bound, 6 zeros,
//! two 8-byte numbers (whole value and 0, or limbs)."

use crate::layout::{number, put_number, HEADER_BYTES, RECORD_BYTES, STATE_BYTES};

use super::state::State;

impl State {
    /// None where document 01 forbids the bytes.
    pub fn read(bytes: &[u8]) -> Option<Self> {
        if bytes.len() != STATE_BYTES || number(bytes, 8) > 1 {
            return None;
        }
        let (pc, halted) = (number(bytes, 0), bytes[8] == 1);
        let mut state = State { pc, halted, accumulated: 0, low: [0; 16], high: [0; 16], bounds: [0; 16] };
        for (register, record) in bytes[HEADER_BYTES..].chunks_exact(RECORD_BYTES).enumerate() {
            state.read_register(register, [0, 8, 16].map(|at| number(record, at)))?;
        }
        let r0_is_zero = state.low[0] == 0 && state.bounds[0] == 0 && !state.is_accumulated(0);
        r0_is_zero.then_some(state)
    }

    /// Bounds are "of 0 to 64 bits"; "Accumulated limbs are below 2^30".
    #[inline]
    fn read_register(&mut self, register: usize, [head, low, high]: [u64; 3]) -> Option<()> {
        let (accumulated, bound) = (head & 0xff, head >> 8);
        let allowed = match accumulated {
            0 => high == 0,
            1 => low < 1 << 30 && high < 1 << 30,
            _ => false,
        };
        if !allowed || bound > 64 {
            return None;
        }
        self.accumulated |= (accumulated as u32) << register;
        (self.low[register], self.high[register], self.bounds[register]) = (low, high, bound as u8);
        Some(())
    }

    pub fn write(&self, bytes: &mut [u8]) {
        put_number(bytes, 0, self.pc);
        put_number(bytes, 8, self.halted as u64);
        for (register, record) in bytes[HEADER_BYTES..].chunks_exact_mut(RECORD_BYTES).enumerate() {
            let accumulated = self.is_accumulated(register);
            put_number(record, 0, accumulated as u64 | (self.bounds[register] as u64) << 8);
            put_number(record, 8, self.low[register]);
            put_number(record, 16, if accumulated { self.high[register] } else { 0 });
        }
    }
}
