//! Stand-in for the crate `zkir_spec`: the published `encoding.rs`, unchanged, and what it and the runtime lean on,
//! written from document 01 alone. Comments in quotes are its sentences.

mod bound;
mod decode;
mod encode;
mod instruction;
mod opcode;
mod register;
mod value40;

pub use self::decode::{decode, Undecodable};
pub use bound::ValueBound;
pub use encode::{encode, Unencodable};
pub use instruction::{Instruction, Operands};
pub use opcode::Opcode;
pub use register::Register;
pub use value40::Value40;

/// `execute.rs` imports this name and does not use it.
pub type Value = Value40;

include!(concat!(env!("OUT_DIR"), "/published.rs"));
