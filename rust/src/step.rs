//! A single step, and what it did.

use std::fmt;

use crate::checks::Checks;
use crate::raw;
use crate::record::Lent;
use crate::state::State;
use crate::stop::{Refusal, Stop};
use crate::Mode;

/// What a step did. Later versions may have more.
///
/// ```
/// use yokeglimmer::{step, Checks, Mode, State, Stepped};
///
/// let stepped = step(&mut State::new(0), &mut [0x32, 0, 0, 0], Mode::Plain, &mut Checks::none());
/// assert_eq!((stepped, stepped.to_string()), (Stepped::Ebreak, "ebreak: the program stopped by itself".to_string()));
/// ```
#[derive(Clone, Copy, Debug, PartialEq, Eq, Hash)]
#[must_use]
#[non_exhaustive]
pub enum Stepped {
    /// The instruction is completed and the pc is at the next.
    On,
    /// An Ebreak: the pc stays at it and the state is halted.
    Ebreak,
    /// An Ecall, which the host is to serve: the pc is behind it.
    Ecall,
    /// The instruction at the pc was refused and changed nothing.
    Refused(Refusal),
}

impl Stepped {
    /// The stop of a run that comes so far, if it stops there.
    ///
    /// ```
    /// use yokeglimmer::{Stepped, Stop};
    ///
    /// assert_eq!((Stepped::On.stop(), Stepped::Ecall.stop()), (None, Some(Stop::Ecall)));
    /// ```
    pub fn stop(self) -> Option<Stop> {
        match self {
            Stepped::On => None,
            Stepped::Ebreak => Some(Stop::Ebreak),
            Stepped::Ecall => Some(Stop::Ecall),
            Stepped::Refused(refusal) => Some(Stop::Refused(refusal)),
        }
    }

    /// For `?`: the refusal as an error.
    ///
    /// ```
    /// use yokeglimmer::{step, Checks, Mode, Refusal, State, Stepped};
    ///
    /// fn steps_until_ebreak(state: &mut State, memory: &mut [u8]) -> Result<u64, Refusal> {
    ///     let mut steps = 1;
    ///     while step(state, memory, Mode::Plain, &mut Checks::none()).or_refused()? != Stepped::Ebreak {
    ///         steps += 1;
    ///     }
    ///     Ok(steps)
    /// }
    /// assert_eq!(steps_until_ebreak(&mut State::new(0), &mut [0x32, 0, 0, 0]), Ok(1));
    /// assert_eq!(steps_until_ebreak(&mut State::new(4), &mut [0x32, 0, 0, 0]), Err(Refusal::PcBeyond { pc: 4 }));
    /// ```
    pub fn or_refused(self) -> Result<Stepped, Refusal> {
        match self {
            Stepped::Refused(refusal) => Err(refusal),
            _ => Ok(self),
        }
    }

    fn of(code: u64, particular: u64, length: usize) -> Option<Stepped> {
        match Stop::of(code, particular, length)? {
            Stop::Fuel => Some(Stepped::On),
            Stop::Ebreak => Some(Stepped::Ebreak),
            Stop::Ecall => Some(Stepped::Ecall),
            Stop::Refused(refusal) => Some(Stepped::Refused(refusal)),
        }
    }
}

impl fmt::Display for Stepped {
    fn fmt(&self, f: &mut fmt::Formatter<'_>) -> fmt::Result {
        match self.stop() {
            None => write!(f, "completed"),
            Some(stop) => stop.fmt(f),
        }
    }
}

/// Takes one step from the state's pc, whether the state is halted or not. Memory begins at address 0 and holds the
/// program too.
///
/// Where a result's bound is over 40, Add and Mul in the plain mode, and Mul alone in the deferred one, list a check.
/// If the list is full, they are refused instead, [`Refusal::ListFull`].
///
/// A plain step of a state with an accumulated register is refused, [`Refusal::Malformed`].
///
/// ```
/// use yokeglimmer::{step, Checks, Mode, Pending, State, Stepped};
///
/// // Addi R1,R0,-1; Add R2,R1,R1; Ebreak
/// let mut memory = vec![0x89, 0x80, 0xff, 0xff, 0x01, 0x89, 0x00, 0x00, 0x32, 0x00, 0x00, 0x00];
/// let (mut state, mut room) = (State::new(0), [Pending::default(); 1]);
/// let mut checks = Checks::over(&mut room);
/// while step(&mut state, &mut memory, Mode::Plain, &mut checks) == Stepped::On {}
/// assert!(state.is_halted());
/// assert_eq!(checks.entries(), [Pending { value: 1099511627774, bound: 64, pc: 4 }]);
/// ```
///
/// A host that takes very many steps can keep the state as a [record](raw::Lent) and call [`raw::step`]: here it is
/// made anew for each.
///
/// # Panics
///
/// If the archive leaves what the rules have not, which is proved not to happen: then another one is linked. (That a
/// step leaves a well-formed state is `StepsKeep` in `crates/agreement`.)
pub fn step(state: &mut State, memory: &mut [u8], mode: Mode, checks: &mut Checks<'_>) -> Stepped {
    let mut lent = Lent::from(&*state);
    let answer = raw::step(&mut lent, memory, checks.room, checks.count, mode.into());
    match (Stepped::of(answer.code, answer.particular, memory.len()), State::try_from(&lent)) {
        (Some(stepped), Ok(after)) => {
            *state = after;
            checks.count = answer.count;
            stepped
        }
        _ => panic!("the archive answered {answer:?} and left {lent:?}, which is no step"),
    }
}
