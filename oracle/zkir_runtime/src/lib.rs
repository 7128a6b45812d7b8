//! Stand-in for the crate `zkir_runtime`: the published `execute.rs`, `deferred.rs` and `normalize.rs`, unchanged, and
//! what they lean on, written from document 01 alone. Comments in quotes are its sentences.

pub mod error;
pub mod memory;
pub mod normalization_witness;
pub mod range_check;
pub mod state;

include!(concat!(env!("OUT_DIR"), "/published.rs"));
