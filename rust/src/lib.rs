//! The proved zkIR core for Rust hosts: the state of the machine, its run with fuel over lent memory, single steps,
//! programs as texts, and checkpoints.
//!
//! Run, step, assembler, printer, and what writes and reads checkpoints are Rattle, proved, and linked as static
//! libraries. Here is what makes them comfortable in Rust: types that cannot be malformed, and answers that say what
//! happened.
//!
//! ```
//! use yokeglimmer::{run, Mode, Register, State, Stop};
//!
//! // Addi R1,R0,-1; Add R2,R1,R1; Ebreak
//! let mut memory = vec![0x89, 0x80, 0xff, 0xff, 0x01, 0x89, 0x00, 0x00, 0x32, 0x00, 0x00, 0x00];
//! let mut plain = State::new(0);
//! let answer = run(&mut plain, &mut memory, 1_000, Mode::Plain);
//! assert_eq!((answer.stop, answer.steps), (Stop::Ebreak, 3));
//! assert_eq!(plain.register(2), Register::Whole(1099511627774));
//!
//! // The deferred mode puts the carries off, and means the same number.
//! let mut deferred = State::new(0);
//! assert_eq!(run(&mut deferred, &mut memory, 1_000, Mode::Deferred), answer);
//! assert_eq!(deferred.register(2), Register::Accumulated { low: 2097150, high: 2097150 });
//! assert_eq!(deferred.value(2), plain.value(2));
//!
//! // A refusal says what and where.
//! let refused = run(&mut State::new(12), &mut memory, 1_000, Mode::Plain);
//! assert_eq!(refused.to_string(), "refused 7: the instruction reaches beyond memory (pc 12); steps: 0");
//! ```
//!
//! A host that serves Ecalls goes on from where the run stopped:
//!
//! ```
//! use yokeglimmer::{run, Mode, Refused, State, Stop};
//!
//! fn serve(state: &mut State, memory: &mut [u8]) -> Result<u64, Refused> {
//!     let mut steps = 0;
//!     loop {
//!         let answer = run(state, memory, 1_000, Mode::Plain).or_refused()?;
//!         steps += answer.steps;
//!         match answer.stop {
//!             Stop::Ecall => state.set_value(1, 42).expect("R1 takes any value"),
//!             _ => return Ok(steps),
//!         }
//!     }
//! }
//!
//! // Ecall; Addi R2,R1,1; Ebreak
//! let mut memory = vec![0x31, 0x00, 0x00, 0x00, 0x09, 0x89, 0x00, 0x00, 0x32, 0x00, 0x00, 0x00];
//! let mut state = State::new(0);
//! assert_eq!(serve(&mut state, &mut memory), Ok(3));
//! assert_eq!(state.value(2), 43);
//! ```
//!
//! Programs can be typed:
//!
//! ```
//! use yokeglimmer::{assemble, print, run, Mode, State};
//!
//! let words = assemble("Addi R1, R0, 10\nagain:\nAdd R2, R2, R1\nAddi R1, R1, -1\nBne R1, R0, again\nEbreak\n")?;
//! let mut memory: Vec<u8> = words.iter().flat_map(|word| word.to_le_bytes()).collect();
//! let mut state = State::new(0);
//! run(&mut state, &mut memory, 1_000, Mode::Plain).or_refused()?;
//! assert_eq!(state.value(2), 55);
//! assert_eq!(print(&words[3..])?, "Bne R1, R0, -8\nEbreak\n");
//!
//! // What is wrong with a text is said in words.
//! let bad = assemble("Addi R1, R0, 10\nEnd\n").unwrap_err();
//! assert_eq!(bad.to_string(), "line 2: End: there is no instruction of this name (column 1: End)");
//! # Ok::<(), Box<dyn std::error::Error>>(())
//! ```
//!
//! A run can be broken off, kept as bytes, and gone on with elsewhere:
//!
//! ```
//! use yokeglimmer::{assemble, run, Checkpoint, Mode, State, Stop};
//!
//! let words = assemble("Addi R1, R0, 10\nagain:\nAdd R2, R2, R1\nAddi R1, R1, -1\nBne R1, R0, again\nEbreak\n")?;
//! let mut memory: Vec<u8> = words.iter().flat_map(|word| word.to_le_bytes()).collect();
//! memory.resize(4096, 0); // a checkpoint's memory has whole pages
//! let mut state = State::new(0);
//! assert_eq!(run(&mut state, &mut memory, 12, Mode::Deferred).stop, Stop::Fuel);
//! let image = Checkpoint::write(&state, &memory)?;
//!
//! let Checkpoint { mut state, mut memory } = Checkpoint::read(&image, 4096)?;
//! run(&mut state, &mut memory, 1_000, Mode::Deferred).or_refused()?;
//! assert_eq!(state.value(2), 55);
//!
//! // What is wrong with an image is said in words.
//! let bad = Checkpoint::read(&image, 0).unwrap_err();
//! let said = "refused 11: the page at address 0 is beyond the memory's 0 bytes (byte 428 of the image)";
//! assert_eq!(bad.to_string(), said);
//! # Ok::<(), Box<dyn std::error::Error>>(())
//! ```
#![deny(missing_docs)]

#[cfg(feature = "text")]
mod assemble;
#[cfg(feature = "checkpoint")]
mod bad_checkpoint;
mod bytes;
#[cfg(feature = "checkpoint")]
mod checkpoint;
#[cfg(feature = "step")]
mod checks;
#[cfg(feature = "checkpoint")]
mod damage;
#[cfg(feature = "text")]
mod forms;
#[cfg(feature = "checkpoint")]
mod image;
mod layout;
#[cfg(feature = "text")]
mod lines;
#[cfg(feature = "text")]
mod mistake;
mod mode;
#[cfg(doctest)]
mod must_not_compile;
#[cfg(feature = "text")]
mod print;
pub mod raw;
#[cfg(feature = "text")]
mod reader;
#[cfg(feature = "step")]
mod record;
mod rule;
mod state;
#[cfg(feature = "step")]
mod step;
mod stop;
#[cfg(any(feature = "text", feature = "checkpoint"))]
mod told;

#[cfg(feature = "text")]
pub use assemble::{assemble, BadLine};
#[cfg(feature = "checkpoint")]
pub use bad_checkpoint::{BadCheckpoint, WrongMemory};
#[cfg(feature = "checkpoint")]
pub use checkpoint::Checkpoint;
#[cfg(feature = "step")]
pub use checks::Checks;
#[cfg(feature = "checkpoint")]
pub use damage::Damage;
#[cfg(feature = "checkpoint")]
pub use image::{MOST_IMAGE_BYTES, MOST_MEMORY_BYTES, PAGE_BYTES};
pub use layout::{ANSWER_BYTES, REGISTERS, STATE_BYTES};
#[cfg(feature = "text")]
pub use mistake::Mistake;
pub use mode::Mode;
#[cfg(feature = "text")]
pub use print::{print, BadWord, PRINTED_BYTES};
#[cfg(feature = "step")]
pub use record::Pending;
pub use rule::{BrokenRule, MalformedBytes};
pub use state::{Register, State};
#[cfg(feature = "step")]
pub use step::{step, Stepped};
pub use stop::{Answer, Refusal, Refused, Stop};

/// Runs from the state's pc until the fuel is used up, an Ebreak, an Ecall or a refusal. Memory begins at address 0 and
/// holds the program too.
///
/// A plain run of a state with an accumulated register is refused, [`Refusal::Malformed`], and changes nothing.
///
/// ```
/// use yokeglimmer::{run, Mode, State, Stop};
///
/// let mut memory = [0x2f, 0, 0, 0]; // Jal R0,0: for ever
/// let answer = run(&mut State::new(0), &mut memory, 1_000_000, Mode::Plain);
/// assert_eq!((answer.stop, answer.steps), (Stop::Fuel, 1_000_000));
/// ```
///
/// # Panics
///
/// If the archive gives an answer that the rules have not, which is proved not to happen: then another one is linked.
pub fn run(state: &mut State, memory: &mut [u8], fuel: u64, mode: Mode) -> Answer {
    let mut answer = [0; ANSWER_BYTES];
    raw::run(&mut state.bytes, memory, &mut answer, fuel, mode.into());
    let [code, steps, particular] = [0, 8, 16].map(|at| layout::number(&answer, at));
    match Stop::of(code, particular, memory.len()) {
        Some(stop) => Answer { stop, steps },
        None => panic!("the archive answered code {code} with {particular}, which is no stop"),
    }
}
