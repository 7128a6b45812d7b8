//! Why a checkpoint is not written or not read.

use std::error::Error;
use std::fmt;

use crate::damage::Damage;
use crate::image::{MOST_MEMORY_BYTES, PAGE_BYTES};
use crate::stop::Refusal;

/// The error of a memory that no checkpoint has. Later versions tell more.
///
/// ```
/// use yokeglimmer::{Checkpoint, State};
///
/// let wrong = Checkpoint::write(&State::new(0), &[0; 100]).unwrap_err();
/// assert_eq!(wrong.length, 100);
/// let said = "refused 9: the memory has 100 bytes, and a checkpoint's has a multiple of 4096, at most 65536";
/// assert_eq!(wrong.to_string(), said);
/// ```
#[derive(Clone, Copy, Debug, PartialEq, Eq, Hash)]
#[non_exhaustive]
pub struct WrongMemory {
    /// The bytes that it has, or was to have.
    pub length: usize,
}

impl WrongMemory {
    /// The refusal as a number: 9.
    ///
    /// ```
    /// use yokeglimmer::{Checkpoint, Refusal, State};
    ///
    /// let wrong = Checkpoint::write(&State::new(0), &[0; 69_632]).unwrap_err();
    /// assert_eq!(wrong.refusal(), Refusal::Malformed);
    /// ```
    pub fn refusal(&self) -> Refusal {
        Refusal::Malformed
    }

    /// Of a memory of that length; nothing where it is right.
    pub(crate) fn of(length: usize) -> Option<WrongMemory> {
        let is_right = length % PAGE_BYTES == 0 && length <= MOST_MEMORY_BYTES;
        Some(WrongMemory { length }).filter(|_| !is_right)
    }
}

impl fmt::Display for WrongMemory {
    fn fmt(&self, f: &mut fmt::Formatter<'_>) -> fmt::Result {
        let (number, length) = (self.refusal().number(), self.length);
        write!(f, "refused {number}: the memory has {length} bytes, and a checkpoint's has ")?;
        write!(f, "a multiple of {PAGE_BYTES}, at most {MOST_MEMORY_BYTES}")
    }
}

impl Error for WrongMemory {}

/// The error of an image that is not read. Later versions may have more.
///
/// ```
/// use yokeglimmer::{BadCheckpoint, Checkpoint, Damage, State};
///
/// let mut image = Checkpoint::write(&State::new(0), &[7; 8192])?;
/// image[20] = 0xb7;
/// let bad = Checkpoint::read(&image, 8192).unwrap_err();
/// assert_eq!(bad, BadCheckpoint::Image { at: 20, damage: Damage::Offset { entry: 2, offset: 439, due: 440 } });
/// let said = "refused 11: entry 2 is said to be at byte 439, and must be at 440 (byte 20 of the image)";
/// assert_eq!(bad.to_string(), said);
/// # Ok::<(), yokeglimmer::WrongMemory>(())
/// ```
#[derive(Clone, Copy, Debug, PartialEq, Eq, Hash)]
#[non_exhaustive]
pub enum BadCheckpoint {
    /// No checkpoint has a memory of that length.
    Memory(WrongMemory),
    /// These bytes are no image, or hold a page that is beyond the memory: the first rule that they break, and the byte
    /// where that is, counted from 0.
    #[allow(missing_docs)] // of the fields
    Image { at: usize, damage: Damage },
}

impl BadCheckpoint {
    /// The refusal as a number: 9 for the memory's length, 11 for the image.
    ///
    /// ```
    /// use yokeglimmer::{Checkpoint, Refusal};
    ///
    /// assert_eq!(Checkpoint::read(b"no image", 8192).unwrap_err().refusal(), Refusal::BadImage);
    /// assert_eq!(Checkpoint::read(b"no image", 8191).unwrap_err().refusal(), Refusal::Malformed);
    /// ```
    pub fn refusal(&self) -> Refusal {
        match self {
            BadCheckpoint::Memory(wrong) => wrong.refusal(),
            BadCheckpoint::Image { .. } => Refusal::BadImage,
        }
    }
}

impl fmt::Display for BadCheckpoint {
    fn fmt(&self, f: &mut fmt::Formatter<'_>) -> fmt::Result {
        match self {
            BadCheckpoint::Memory(wrong) => wrong.fmt(f),
            BadCheckpoint::Image { at, damage } => {
                write!(f, "refused {}: {damage} (byte {at} of the image)", self.refusal().number())
            }
        }
    }
}

impl Error for BadCheckpoint {
    fn source(&self) -> Option<&(dyn Error + 'static)> {
        match self {
            BadCheckpoint::Memory(wrong) => Some(wrong),
            BadCheckpoint::Image { damage: Damage::State(rule), .. } => Some(rule),
            BadCheckpoint::Image { .. } => None,
        }
    }
}
