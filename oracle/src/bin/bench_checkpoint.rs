//! `bench_checkpoint [ROUNDS [CALLS]]`: the table of checkpoints that `tools/bench` prints, CALLS calls a round. A program of
//! its own, as `bench` is.

use std::env;
use std::process::ExitCode;

use oracle::bench::{print_checkpoint_table, verdict, Effort};
use oracle::checkpoint::subject;

fn main() -> ExitCode {
    let arguments: Vec<String> = env::args().skip(1).collect();
    let (name, ours) = subject();
    println!("ours: {name}");
    verdict(&print_checkpoint_table(ours, Effort::of(&arguments, 1_000)))
}
