//! The oracle: the published Rust over stand-ins written from document 01, to be compared with our code.

pub mod assemble;
pub mod bench;
pub mod calls;
pub mod case;
pub mod checkpoint;
pub mod checkpoint_calls;
pub mod compare;
pub mod corners;
#[cfg(exports)]
pub mod exported;
pub mod generate;
pub mod host;
pub mod inside;
pub mod interpreter;
pub mod layout;
pub mod listed;
pub mod machine;
pub mod numbers;
pub mod parallel;
pub mod programs;
pub mod random;
pub mod refusal;
pub mod run;
pub mod shrink;
pub mod subject;
pub mod sweep;
pub mod tally;
pub mod text;
pub mod text_calls;
pub mod told;
pub mod vectors;
pub mod words;
