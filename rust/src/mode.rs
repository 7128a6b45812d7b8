//! The two modes of a run.

use std::fmt;

use crate::rule::BrokenRule;

/// How sums and differences are kept.
///
/// ```
/// use yokeglimmer::{BrokenRule, Mode};
///
/// assert_eq!(Mode::try_from(1), Ok(Mode::Deferred));
/// assert_eq!(Mode::try_from(2), Err(BrokenRule::Mode { number: 2 }));
/// assert_eq!((u64::from(Mode::Plain), Mode::Plain.to_string()), (0, "plain".to_string()));
/// ```
#[derive(Clone, Copy, Debug, PartialEq, Eq, Hash)]
pub enum Mode {
    /// Whole, carried at once.
    Plain = 0,
    /// In two limbs, with the carries put off until another instruction reads the register.
    Deferred = 1,
}

/// The number by which the calls take the mode.
impl From<Mode> for u64 {
    fn from(mode: Mode) -> u64 {
        mode as u64
    }
}

impl TryFrom<u64> for Mode {
    type Error = BrokenRule;

    fn try_from(number: u64) -> Result<Self, BrokenRule> {
        match number {
            0 => Ok(Mode::Plain),
            1 => Ok(Mode::Deferred),
            _ => Err(BrokenRule::Mode { number }),
        }
    }
}

impl fmt::Display for Mode {
    fn fmt(&self, f: &mut fmt::Formatter<'_>) -> fmt::Result {
        f.pad(match self {
            Mode::Plain => "plain",
            Mode::Deferred => "deferred",
        })
    }
}
