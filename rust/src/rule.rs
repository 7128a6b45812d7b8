//! Which rule of arguments something breaks.

use std::error::Error;
use std::fmt;

use crate::layout::STATE_BYTES;

/// Limbs are below this.
pub(crate) const LIMB_LIMIT: u64 = 1 << 30;

/// Bounds are at most this.
pub(crate) const LARGEST_BOUND: u8 = 64;

/// A rule that no state and no mode breaks, and what would have broken it.
///
/// ```
/// use yokeglimmer::{BrokenRule, State};
///
/// let refused = State::new(0).set_bound(1, 65);
/// assert_eq!(refused, Err(BrokenRule::Bound { register: 1, bound: 65 }));
/// assert_eq!(refused.unwrap_err().to_string(), "R1 has the bound 65, and bounds are 0 to 64");
/// ```
#[derive(Clone, Copy, Debug, PartialEq, Eq, Hash)]
#[non_exhaustive]
#[allow(missing_docs)] // of the fields: they are what the rule speaks of
pub enum BrokenRule {
    /// An accumulated register's limbs are below 2^30.
    Limb { register: usize, limb: u64 },
    /// A bound is 0 to 64.
    Bound { register: usize, bound: u8 },
    /// R0 is whole, zero, and has bound 0.
    ZeroRegister,
    /// A state has 400 bytes.
    Length { bytes: usize },
    /// The halt mark is 0 or 1.
    HaltMark { byte: u8 },
    /// The bytes between the fields are 0.
    Filler { byte: u8 },
    /// A register's kind is 0, whole, or 1, accumulated.
    Kind { register: usize, byte: u8 },
    /// A whole register's second number is 0.
    SecondNumber { register: usize, number: u64 },
    /// A mode is 0, plain, or 1, deferred.
    Mode { number: u64 },
}

impl fmt::Display for BrokenRule {
    fn fmt(&self, f: &mut fmt::Formatter<'_>) -> fmt::Result {
        match *self {
            BrokenRule::Limb { register, limb } => {
                write!(f, "R{register} has a limb of {limb}, and limbs are below 2^30")
            }
            BrokenRule::Bound { register, bound } => {
                write!(f, "R{register} has the bound {bound}, and bounds are 0 to 64")
            }
            BrokenRule::ZeroRegister => write!(f, "R0 is always whole, zero, with bound 0"),
            BrokenRule::Length { bytes } => write!(f, "a state has {STATE_BYTES} bytes, and these are {bytes}"),
            BrokenRule::HaltMark { byte } => write!(f, "the halt mark is {byte}, and may be 0 or 1"),
            BrokenRule::Filler { byte } => write!(f, "the filler is {byte}, and must be 0"),
            BrokenRule::Kind { register, byte } => {
                write!(f, "R{register} has the kind {byte}, and kinds are 0 (whole) and 1 (accumulated)")
            }
            BrokenRule::SecondNumber { register, number } => {
                write!(f, "R{register} is whole and has the second number {number}, which must be 0")
            }
            BrokenRule::Mode { number } => {
                write!(f, "there is no mode {number}, and modes are 0 (plain) and 1 (deferred)")
            }
        }
    }
}

impl Error for BrokenRule {}

/// Bytes that are no state's: the rule they break first, and where.
///
/// ```
/// use yokeglimmer::{BrokenRule, State};
///
/// let mut bytes = State::new(0).to_bytes();
/// bytes[8] = 2;
/// let malformed = State::try_from(bytes).unwrap_err();
/// assert_eq!((malformed.at, malformed.rule), (8, BrokenRule::HaltMark { byte: 2 }));
/// assert_eq!(malformed.to_string(), "at byte 8: the halt mark is 2, and may be 0 or 1");
/// ```
#[derive(Clone, Copy, Debug, PartialEq, Eq, Hash)]
pub struct MalformedBytes {
    /// The byte, counted from 0.
    pub at: usize,
    /// The rule.
    pub rule: BrokenRule,
}

impl fmt::Display for MalformedBytes {
    fn fmt(&self, f: &mut fmt::Formatter<'_>) -> fmt::Result {
        write!(f, "at byte {}: {}", self.at, self.rule)
    }
}

impl Error for MalformedBytes {
    fn source(&self) -> Option<&(dyn Error + 'static)> {
        Some(&self.rule)
    }
}

pub(crate) fn check_limb(register: usize, limb: u64) -> Result<(), BrokenRule> {
    if limb < LIMB_LIMIT {
        return Ok(());
    }
    Err(BrokenRule::Limb { register, limb })
}

pub(crate) fn check_bound(register: usize, bound: u8) -> Result<(), BrokenRule> {
    if bound <= LARGEST_BOUND {
        return Ok(());
    }
    Err(BrokenRule::Bound { register, bound })
}
