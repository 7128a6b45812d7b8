//! Places in the bytes of a state and of an answer. Every number in them is little-endian.

/// A state has sixteen registers, R0 to R15.
///
/// ```
/// let state = yokeglimmer::State::new(0);
/// assert!((0..yokeglimmer::REGISTERS).all(|n| state.value(n) == 0));
/// ```
pub const REGISTERS: usize = 16;

/// A state's bytes: a header of 16, then a record of 24 for each register ([`State::to_bytes`](crate::State::to_bytes)).
///
/// ```
/// assert_eq!(yokeglimmer::STATE_BYTES, 400);
/// ```
pub const STATE_BYTES: usize = HEADER_BYTES + REGISTERS * RECORD_BYTES;

/// An answer's bytes: code, steps and particular, 8 each ([`raw::run`](crate::raw::run)).
///
/// ```
/// assert_eq!(yokeglimmer::ANSWER_BYTES, 24);
/// ```
pub const ANSWER_BYTES: usize = 24;

/// The header: pc (8), halt mark, 7 zeros.
pub(crate) const HEADER_BYTES: usize = 16;
pub(crate) const PC: usize = 0;
pub(crate) const HALT_MARK: usize = 8;

/// A record: kind, bound, 6 zeros, two numbers (8 each).
pub(crate) const RECORD_BYTES: usize = 24;
pub(crate) const KIND: usize = 0;
pub(crate) const BOUND: usize = 1;
pub(crate) const FIRST: usize = 8;
pub(crate) const SECOND: usize = 16;

/// The kinds.
pub(crate) const WHOLE: u8 = 0;
pub(crate) const ACCUMULATED: u8 = 1;

pub(crate) fn record_at(register: usize) -> usize {
    HEADER_BYTES + RECORD_BYTES * register
}

pub(crate) fn number(bytes: &[u8], at: usize) -> u64 {
    u64::from_le_bytes(std::array::from_fn(|i| bytes[at + i]))
}

pub(crate) fn put_number(bytes: &mut [u8], at: usize, number: u64) {
    bytes[at..at + 8].copy_from_slice(&number.to_le_bytes());
}
