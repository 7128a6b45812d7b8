//! Document 02, A3: checkpoint images, written and read as one would without proofs in mind. It judges ours, and `tools/bench`
//! measures ours beside it. Nothing is rebuilt to be compared: the reader goes by the table, entry by entry.

#[cfg(exports_checkpoint)]
mod exported;
mod format;
mod read;
mod subject;
mod write;

pub use format::{
    is_lendable, is_zero, ADDRESS_BYTES, COUNT_BYTES, ENTRY_BYTES, MOST_MEMORY, PAGE_BODY_BYTES, PAGE_BYTES, PAGE_KIND,
    STATE_KIND,
};
pub use read::{read, Broken, Contents, Page};
pub use subject::{subject, CheckpointSubject, OracleCheckpoint};
pub use write::write;
