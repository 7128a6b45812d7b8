//! What is compared with the oracle.

use crate::host::oracle_run;

/// One function: the host call `zkir_run`.
pub trait Subject {
    fn run(&self, state: &mut [u8], memory: &mut [u8], answer: &mut [u8], fuel: u64, mode: u64) -> u64;
}

/// The oracle as its own subject: it must agree with itself.
pub struct Oracle;

impl Subject for Oracle {
    fn run(&self, state: &mut [u8], memory: &mut [u8], answer: &mut [u8], fuel: u64, mode: u64) -> u64 {
        oracle_run(state, memory, answer, fuel, mode)
    }
}

/// The archive that the crate for Rust hosts links.
#[cfg(feature = "archive")]
pub struct Archive;

#[cfg(feature = "archive")]
impl Subject for Archive {
    fn run(&self, state: &mut [u8], memory: &mut [u8], answer: &mut [u8], fuel: u64, mode: u64) -> u64 {
        yokeglimmer::raw::run(state, memory, answer, fuel, mode)
    }
}

// An archive that is named but not linked would be taken for one that agrees.
#[cfg(not(feature = "archive"))]
const _: () = match option_env!("ZKIR_ARCHIVE") {
    Some(named) if !named.is_empty() => panic!("ZKIR_ARCHIVE is set: build with --features archive"),
    _ => {}
};

/// The archive where one is linked, else the oracle itself.
pub fn subject() -> (&'static str, &'static dyn Subject) {
    #[cfg(feature = "archive")]
    return ("the archive", &Archive);
    #[cfg(not(feature = "archive"))]
    return ("the oracle itself (built without the feature archive)", &Oracle);
}
