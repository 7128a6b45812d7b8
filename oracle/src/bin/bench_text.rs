//! `bench_text [ROUNDS [LINES]]`: the table of texts that `tools/bench` prints, LINES lines a round. A program of its own,
//! as `bench` is.

use std::env;
use std::process::ExitCode;

use oracle::bench::{print_text_table, verdict, Effort};
use oracle::text::subject;

fn main() -> ExitCode {
    let arguments: Vec<String> = env::args().skip(1).collect();
    let (name, ours) = subject();
    println!("ours: {name}");
    verdict(&print_text_table(ours, Effort::of(&arguments, 160_000)))
}
