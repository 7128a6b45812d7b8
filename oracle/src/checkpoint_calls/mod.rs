//! Calls that write and read checkpoints, generated and enumerated, and compared with the oracle's.

mod bytes;
mod call;
mod compare;
mod damage;
mod generate;
mod held;
mod lent;
mod lists;
mod machine;
mod met;
mod parts;
mod show;
mod shrink;

use crate::calls::{Calls, Section};
use crate::checkpoint::subject;

pub use call::{Call, Left, Lent, What};
pub use compare::{CheckpointComparer, CheckpointDifference};
pub use generate::any;
pub use machine::Machine;
pub use met::{Met, Side};
pub use parts::{image_bytes, number_of_table, Entry, Parts};

/// The enumerated calls, by what is enumerated.
pub const SECTIONS: [(&str, Section<Call>); 14] = [
    ("lengths of memory", lent::memory_lengths),
    ("lengths of a state", lent::state_lengths),
    ("numbers of pages", held::counts),
    ("sets of held pages", held::sets),
    ("addresses", lists::addresses),
    ("gaps and overlaps", lists::sizes),
    ("numbers of the table", lists::table),
    ("states", lent::states),
    ("lists of entries", lists::entries),
    ("images cut off or with more behind", bytes::cut),
    ("room lent", lent::room),
    ("one byte more or less", bytes::moved),
    ("places of a page", held::places),
    ("one byte changed", bytes::changed),
];

/// The command `checkpoint`: false where the subject differs.
pub fn checkpoints(count: u64, seed: u64) -> bool {
    Calls { enumerated: "checkpoints", sections: &SECTIONS, generated: any }.compare(subject(), count, seed)
}
