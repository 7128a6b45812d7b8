//! Why a run stops, and why it is refused.

use std::error::Error;
use std::fmt;

/// Why a step or a call is refused, in the order of the refusals' numbers. Later versions have more.
///
/// ```
/// use yokeglimmer::{run, Mode, Refusal, State, Stop};
///
/// // Addi R1,R0,1; Div R2,R1,R0
/// let mut memory = [0x89, 0x80, 0x00, 0x00, 0x05, 0x09, 0x00, 0x00];
/// let answer = run(&mut State::new(0), &mut memory, 10, Mode::Plain);
/// assert_eq!(answer.stop, Stop::Refused(Refusal::DivisorZero { pc: 4 }));
/// assert_eq!(answer.stop.to_string(), "refused 1: the instruction divides by zero (pc 4)");
/// ```
#[derive(Clone, Copy, Debug, PartialEq, Eq, Hash)]
#[non_exhaustive]
#[allow(missing_docs)] // of the fields: the first is the particular
pub enum Refusal {
    /// The instruction at the pc divides by zero.
    DivisorZero { pc: u64 },
    /// The access reaches beyond memory: the first byte that is missing, and how many bytes memory has.
    Beyond { missing: u64, length: u64 },
    /// The address is not a multiple of the access's size.
    Misaligned { address: u64 },
    /// The word's opcode is 0 or over 50.
    BadOpcode { word: u32 },
    /// The word has bits set that its instruction leaves unused, or a shift amount over 63.
    UnusedBits { word: u32 },
    /// The pc is not a multiple of 4.
    PcMisaligned { pc: u64 },
    /// The four bytes at the pc reach beyond memory.
    PcBeyond { pc: u64 },
    /// A check is needed and the list lent for it is full. [`run`](crate::run) lends none, so only a step answers this.
    ListFull { pc: u64 },
    /// An argument is malformed. From [`run`](crate::run) or a step: it is plain and a register is accumulated. For a
    /// checkpoint: its memory has a length that none has.
    Malformed,
    /// The text has a bad line, the first of which is named, counted from 1. No step or run answers this.
    BadLine { line: u64 },
    /// The image breaks a rule of checkpoints, or has no room for one. No step or run answers this.
    BadImage,
}

impl Refusal {
    /// 1 to 11.
    ///
    /// ```
    /// assert_eq!(yokeglimmer::Refusal::Misaligned { address: 7 }.number(), 3);
    /// ```
    pub fn number(self) -> u64 {
        match self {
            Refusal::DivisorZero { .. } => 1,
            Refusal::Beyond { .. } => 2,
            Refusal::Misaligned { .. } => 3,
            Refusal::BadOpcode { .. } => 4,
            Refusal::UnusedBits { .. } => 5,
            Refusal::PcMisaligned { .. } => 6,
            Refusal::PcBeyond { .. } => 7,
            Refusal::ListFull { .. } => 8,
            Refusal::Malformed => 9,
            Refusal::BadLine { .. } => 10,
            Refusal::BadImage => 11,
        }
    }

    /// The pc, the missing byte, the address, the word or the line that the refusal names; 0 where it names none.
    ///
    /// ```
    /// assert_eq!(yokeglimmer::Refusal::Misaligned { address: 7 }.particular(), 7);
    /// ```
    pub fn particular(self) -> u64 {
        match self {
            Refusal::DivisorZero { pc }
            | Refusal::PcMisaligned { pc }
            | Refusal::PcBeyond { pc }
            | Refusal::ListFull { pc } => pc,
            Refusal::Beyond { missing, .. } => missing,
            Refusal::Misaligned { address } => address,
            Refusal::BadOpcode { word } | Refusal::UnusedBits { word } => word.into(),
            Refusal::Malformed | Refusal::BadImage => 0,
            Refusal::BadLine { line } => line,
        }
    }

    /// The refusal of a step or a run over memory of that length, by its number and particular.
    pub(crate) fn of(number: u64, particular: u64, length: usize) -> Option<Refusal> {
        let [pc, missing, address] = [particular; 3];
        let length = length as u64;
        match number {
            1 => Some(Refusal::DivisorZero { pc }),
            2 if missing >= length => Some(Refusal::Beyond { missing, length }),
            3 => Some(Refusal::Misaligned { address }),
            4 | 5 => Refusal::of_word(number, u32::try_from(particular).ok()?),
            6 => Some(Refusal::PcMisaligned { pc }),
            7 => Some(Refusal::PcBeyond { pc }),
            8 => Some(Refusal::ListFull { pc }),
            9 => Some(Refusal::Malformed),
            _ => None,
        }
    }

    /// The refusal of a word that is no instruction, by its number.
    pub(crate) fn of_word(number: u64, word: u32) -> Option<Refusal> {
        match number {
            4 => Some(Refusal::BadOpcode { word }),
            5 => Some(Refusal::UnusedBits { word }),
            _ => None,
        }
    }
}

// The words are those of docs/stops.txt, but for 2, which can say more.
impl fmt::Display for Refusal {
    fn fmt(&self, f: &mut fmt::Formatter<'_>) -> fmt::Result {
        write!(f, "refused {}: ", self.number())?;
        match self {
            Refusal::DivisorZero { pc } => write!(f, "the instruction divides by zero (pc {pc})"),
            Refusal::Beyond { missing, length } => write!(f, "byte {missing} is beyond the memory's {length}"),
            Refusal::Misaligned { address } => {
                write!(f, "the access is not at a multiple of its size (address {address})")
            }
            Refusal::BadOpcode { word } => write!(f, "the word's opcode is 0 or over 50 (word 0x{word:08x})"),
            Refusal::UnusedBits { word } => write!(
                f,
                "the word has bits set that its instruction leaves unused, or a shift amount over 63 (word 0x{word:08x})"
            ),
            Refusal::PcMisaligned { pc } => write!(f, "the pc is not a multiple of 4 (pc {pc})"),
            Refusal::PcBeyond { pc } => write!(f, "the instruction reaches beyond memory (pc {pc})"),
            Refusal::ListFull { pc } => {
                write!(f, "the instruction needs a check, and the list of pending checks is full (pc {pc})")
            }
            Refusal::Malformed => write!(f, "an argument is malformed"),
            Refusal::BadLine { line } => write!(f, "the text has a bad line (line {line})"),
            Refusal::BadImage => write!(f, "the image breaks a rule of checkpoints, or has no room for one"),
        }
    }
}

impl Error for Refusal {}

/// Why a run stopped. Later versions may have more.
///
/// ```
/// use yokeglimmer::{run, Mode, State, Stop};
///
/// let answer = run(&mut State::new(0), &mut [0x31, 0, 0, 0], 10, Mode::Plain);
/// match answer.stop {
///     Stop::Ecall => println!("serve it, and run again"),
///     Stop::Refused(refusal) => panic!("{refusal}"),
///     stop => panic!("{stop}"),
/// }
/// ```
#[derive(Clone, Copy, Debug, PartialEq, Eq, Hash)]
#[non_exhaustive]
pub enum Stop {
    /// The fuel is used up.
    Fuel,
    /// An Ebreak, now or earlier: the pc stays at it and the state is halted.
    Ebreak,
    /// An Ecall, which the host is to serve: the pc is behind it.
    Ecall,
    /// The instruction at the pc was refused and changed nothing.
    Refused(Refusal),
}

impl Stop {
    /// The code by which the call tells the stop: 0 fuel, 1 to 9 refusals, 64 Ebreak, 65 Ecall.
    ///
    /// ```
    /// assert_eq!(yokeglimmer::Stop::Ebreak.code(), 64);
    /// ```
    pub fn code(self) -> u64 {
        match self {
            Stop::Fuel => 0,
            Stop::Ebreak => 64,
            Stop::Ecall => 65,
            Stop::Refused(refusal) => refusal.number(),
        }
    }

    /// The stop of a code and a particular over memory of that length, where there is one.
    pub(crate) fn of(code: u64, particular: u64, length: usize) -> Option<Stop> {
        match code {
            0 => Some(Stop::Fuel),
            64 => Some(Stop::Ebreak),
            65 => Some(Stop::Ecall),
            _ => Refusal::of(code, particular, length).map(Stop::Refused),
        }
    }
}

impl fmt::Display for Stop {
    fn fmt(&self, f: &mut fmt::Formatter<'_>) -> fmt::Result {
        match self {
            Stop::Fuel => write!(f, "fuel: the fuel is used up"),
            Stop::Ebreak => write!(f, "ebreak: the program stopped by itself"),
            Stop::Ecall => write!(f, "ecall: the program asks its host for a service"),
            Stop::Refused(refusal) => refusal.fmt(f),
        }
    }
}

/// What a run answers. Later versions tell more.
///
/// ```
/// use yokeglimmer::{run, Mode, State, Stop};
///
/// let answer = run(&mut State::new(0), &mut [0x32, 0, 0, 0], 10, Mode::Plain);
/// assert_eq!((answer.stop, answer.steps), (Stop::Ebreak, 1));
/// assert_eq!(answer.to_string(), "ebreak: the program stopped by itself; steps: 1");
/// ```
#[derive(Clone, Copy, Debug, PartialEq, Eq, Hash)]
#[must_use]
#[non_exhaustive]
pub struct Answer {
    /// Why the run stopped.
    pub stop: Stop,
    /// The instructions completed, never more than the fuel. Ebreak and Ecall count, a refused one doesn't.
    pub steps: u64,
}

impl Answer {
    /// For `?`: the answer of a run that was not refused; else the refusal, with what was done before it. The state and the
    /// memory are as the completed instructions left them, either way.
    ///
    /// ```
    /// use yokeglimmer::{run, Mode, Refused, State};
    ///
    /// fn steps_of(memory: &mut [u8]) -> Result<u64, Refused> {
    ///     Ok(run(&mut State::new(0), memory, 1_000, Mode::Plain).or_refused()?.steps)
    /// }
    /// assert_eq!(steps_of(&mut [0x32, 0, 0, 0]), Ok(1));
    /// ```
    pub fn or_refused(self) -> Result<Answer, Refused> {
        match self.stop {
            Stop::Refused(refusal) => Err(Refused { refusal, steps: self.steps }),
            _ => Ok(self),
        }
    }
}

impl fmt::Display for Answer {
    fn fmt(&self, f: &mut fmt::Formatter<'_>) -> fmt::Result {
        write!(f, "{}; steps: {}", self.stop, self.steps)
    }
}

/// The error of a run that was refused. Later versions tell more.
///
/// ```
/// use yokeglimmer::{run, Mode, Refusal, State};
///
/// let mut memory = [0x89, 0x80, 0x03, 0x00]; // Addi R1,R0,7, and nothing behind it
/// let refused = run(&mut State::new(0), &mut memory, 10, Mode::Plain).or_refused().unwrap_err();
/// assert_eq!((refused.refusal, refused.steps), (Refusal::PcBeyond { pc: 4 }, 1));
/// assert_eq!(refused.to_string(), "refused 7: the instruction reaches beyond memory (pc 4); steps: 1");
/// ```
#[derive(Clone, Copy, Debug, PartialEq, Eq, Hash)]
#[non_exhaustive]
pub struct Refused {
    /// Why the instruction at the pc was refused.
    pub refusal: Refusal,
    /// The instructions completed before it.
    pub steps: u64,
}

impl fmt::Display for Refused {
    fn fmt(&self, f: &mut fmt::Formatter<'_>) -> fmt::Result {
        write!(f, "{}; steps: {}", self.refusal, self.steps)
    }
}

impl Error for Refused {
    fn source(&self) -> Option<&(dyn Error + 'static)> {
        Some(&self.refusal)
    }
}
