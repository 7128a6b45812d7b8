//! What can be wrong with an image.

use std::fmt;

use crate::image::PAGE_BYTES;
use crate::rule::BrokenRule;

/// A rule that no image breaks, and what breaks it, in the order in which an image is looked through. Later versions may
/// have more.
///
/// ```
/// use yokeglimmer::{BadCheckpoint, Checkpoint, Damage, State};
///
/// let mut image = Checkpoint::write(&State::new(0), &[])?;
/// image[8] = 12;
/// let bad = Checkpoint::read(&image, 0).unwrap_err();
/// assert_eq!(bad, BadCheckpoint::Image { at: 8, damage: Damage::Offset { entry: 1, offset: 12, due: 16 } });
/// # Ok::<(), yokeglimmer::WrongMemory>(())
/// ```
#[derive(Clone, Copy, Debug, PartialEq, Eq, Hash)]
#[non_exhaustive]
#[allow(missing_docs)] // of the fields: what stands there, and what is due
pub enum Damage {
    /// The image begins with the count of its entries, four bytes.
    NoCount,
    /// The count is another than both the image's length and the first entry's offset tell of.
    Count { count: u64, due: u64 },
    /// The state's entry is always there.
    NoEntry,
    /// The table has twelve bytes for each entry, behind the count.
    TableCut { count: u64, table: u64 },
    /// The first entry is of kind 1, the state; all others are of kind 2, pages.
    Kind { entry: u64, kind: u64, due: u64 },
    /// Bodies follow the table in its order, and there is nothing between them.
    Offset { entry: u64, offset: u64, due: u64 },
    /// A state has 400 bytes, a page with its address 4,104.
    Length { entry: u64, length: u64, due: u64 },
    /// The image has all bytes that its table tells of.
    Missing { length: u64, due: u64 },
    /// The image ends with its last body.
    Surplus { length: u64, due: u64 },
    /// The state is well-formed.
    State(BrokenRule),
    /// A page's address is a multiple of 4,096.
    Misplaced { address: u64 },
    /// Pages are of memory, which has that length.
    Beyond { address: u64, length: u64 },
    /// A page is held once.
    Twice { address: u64 },
    /// Pages go by rising address: this one stands behind one with a larger address.
    Behind { address: u64, larger: u64 },
    /// Pages of zeros are not held.
    Zeros { address: u64 },
}

impl fmt::Display for Damage {
    fn fmt(&self, f: &mut fmt::Formatter<'_>) -> fmt::Result {
        match *self {
            Damage::NoCount => write!(f, "the image ends within the count of its entries"),
            Damage::Count { count, due } => write!(f, "the count of entries is {count}, and must be {due}"),
            Damage::NoEntry => write!(f, "the count of entries is 0, and the state's is always there"),
            Damage::TableCut { count, table } => {
                write!(f, "the image ends within its table, which takes {table} bytes for {count} entries")
            }
            Damage::Kind { entry, kind, due } => {
                write!(f, "entry {entry} is of kind {kind}, and must be of kind {due}")
            }
            Damage::Offset { entry, offset, due } => {
                write!(f, "entry {entry} is said to be at byte {offset}, and must be at {due}")
            }
            Damage::Length { entry, length, due } => {
                write!(f, "entry {entry} is said to have {length} bytes, and must have {due}")
            }
            Damage::Missing { length, due } => {
                write!(f, "bytes are missing at the end: the image has {length}, and its table tells of {due}")
            }
            Damage::Surplus { length, due } => {
                write!(f, "bytes follow the last entry: the image has {length}, and its table tells of {due}")
            }
            Damage::State(rule) => write!(f, "the state is malformed: {rule}"),
            Damage::Misplaced { address } => {
                write!(f, "a page is at address {address}, and must be at a multiple of {PAGE_BYTES}")
            }
            Damage::Beyond { address, length } => {
                write!(f, "the page at address {address} is beyond the memory's {length} bytes")
            }
            Damage::Twice { address } => write!(f, "the page at address {address} is held already"),
            Damage::Behind { address, larger } => {
                write!(f, "the page at address {address} stands behind the one at {larger}, and must stand before it")
            }
            Damage::Zeros { address } => {
                write!(f, "the page at address {address} is all zeros, and such pages are not held")
            }
        }
    }
}
