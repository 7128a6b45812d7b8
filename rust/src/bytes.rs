//! A state from and to its 400 bytes.

use crate::layout::{
    number, record_at, ACCUMULATED, BOUND, FIRST, HALT_MARK, HEADER_BYTES, KIND, RECORD_BYTES, REGISTERS, SECOND,
    STATE_BYTES, WHOLE,
};
use crate::rule::{check_bound, check_limb, BrokenRule, MalformedBytes};
use crate::state::State;

impl State {
    /// The 400 bytes by which a state is handed over, every number little-endian:
    ///
    /// | Bytes | Hold |
    /// |---|---|
    /// | 0 to 7 | the pc |
    /// | 8 | the halt mark, 0 or 1 |
    /// | 9 to 15 | 0 |
    /// | 16 + 24 * n | the kind of register n: 0 whole, 1 accumulated |
    /// | 17 + 24 * n | its bound, 0 to 64 |
    /// | 18 + 24 * n and five more | 0 |
    /// | 24 + 24 * n and seven more | its value if it is whole, else its low limb |
    /// | 32 + 24 * n and seven more | 0 if it is whole, else its high limb |
    ///
    /// Limbs are below 2^30, and R0's 24 bytes are all 0. A host that keeps states, or hands them on, keeps these bytes.
    ///
    /// ```
    /// use yokeglimmer::State;
    ///
    /// let mut state = State::new(0x1000);
    /// state.set_value(1, 5).expect("R1 takes any value");
    /// let bytes = state.to_bytes();
    /// assert_eq!((bytes[1], bytes[41], bytes[48]), (0x10, 3, 5));
    /// assert_eq!(State::try_from(bytes), Ok(state));
    /// ```
    pub fn to_bytes(&self) -> [u8; STATE_BYTES] {
        self.bytes
    }
}

/// The inverse of [`State::to_bytes`]; it refuses the bytes that are no state's, with the place and the rule.
impl TryFrom<&[u8]> for State {
    type Error = MalformedBytes;

    fn try_from(given: &[u8]) -> Result<Self, MalformedBytes> {
        match <[u8; STATE_BYTES]>::try_from(given) {
            Ok(bytes) => State::try_from(bytes),
            Err(_) => refuse(given.len().min(STATE_BYTES), BrokenRule::Length { bytes: given.len() }),
        }
    }
}

/// As of a slice, where the length is known to be right.
impl TryFrom<[u8; STATE_BYTES]> for State {
    type Error = MalformedBytes;

    fn try_from(bytes: [u8; STATE_BYTES]) -> Result<Self, MalformedBytes> {
        check_header(&bytes)?;
        for register in 0..REGISTERS {
            check_record(register, &bytes)?;
        }
        Ok(State { bytes })
    }
}

/// As of a slice, where the length is known to be right.
impl TryFrom<&[u8; STATE_BYTES]> for State {
    type Error = MalformedBytes;

    fn try_from(bytes: &[u8; STATE_BYTES]) -> Result<Self, MalformedBytes> {
        State::try_from(*bytes)
    }
}

fn refuse<T>(at: usize, rule: BrokenRule) -> Result<T, MalformedBytes> {
    Err(MalformedBytes { at, rule })
}

fn check_header(bytes: &[u8]) -> Result<(), MalformedBytes> {
    if bytes[HALT_MARK] > 1 {
        return refuse(HALT_MARK, BrokenRule::HaltMark { byte: bytes[HALT_MARK] });
    }
    check_filler(bytes, HALT_MARK + 1, HEADER_BYTES)
}

fn check_record(register: usize, bytes: &[u8]) -> Result<(), MalformedBytes> {
    let at = record_at(register);
    let placed = |place: usize| move |rule| MalformedBytes { at: at + place, rule };
    let [first, second] = [FIRST, SECOND].map(|place| number(bytes, at + place));
    if bytes[at + KIND] > ACCUMULATED {
        return refuse(at + KIND, BrokenRule::Kind { register, byte: bytes[at + KIND] });
    }
    check_bound(register, bytes[at + BOUND]).map_err(placed(BOUND))?;
    check_filler(bytes, at + BOUND + 1, at + FIRST)?;
    if bytes[at + KIND] == ACCUMULATED {
        check_limb(register, first).map_err(placed(FIRST))?;
        check_limb(register, second).map_err(placed(SECOND))?;
    }
    if bytes[at + KIND] == WHOLE && second != 0 {
        return refuse(at + SECOND, BrokenRule::SecondNumber { register, number: second });
    }
    if register == 0 && bytes[at..at + RECORD_BYTES] != [0; RECORD_BYTES] {
        return refuse(at, BrokenRule::ZeroRegister);
    }
    Ok(())
}

fn check_filler(bytes: &[u8], from: usize, until: usize) -> Result<(), MalformedBytes> {
    match (from..until).find(|&at| bytes[at] != 0) {
        Some(at) => refuse(at, BrokenRule::Filler { byte: bytes[at] }),
        None => Ok(()),
    }
}
