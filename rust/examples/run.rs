//! Runs a zkIR program in both modes and prints where each stopped and what its registers hold.
//!
//!     cargo run --example run [FILE]
//!
//! FILE holds the program's bytes, at most 65,536, which become the start of that much memory. Without one it is the
//! program that the repository's own two programs are tested on.

use std::fs::File;
use std::io::Read;
use std::process::ExitCode;

use yokeglimmer::{run, Mode, State};

const MEMORY_BYTES: usize = 65_536;
const FUEL: u64 = 1_000_000;

/// Addi R1,R0,-1; Add R2,R1,R1; Ebreak
const PROGRAM: [u8; 12] = [0x89, 0x80, 0xff, 0xff, 0x01, 0x89, 0x00, 0x00, 0x32, 0x00, 0x00, 0x00];

fn main() -> ExitCode {
    let named: Vec<String> = std::env::args().skip(1).collect();
    let loaded = match &named[..] {
        [] => Ok(filled(PROGRAM.to_vec())),
        [path] => load(path).map_err(|why| format!("{path}: {why}")),
        _ => Err("usage: run [FILE]".to_string()),
    };
    match loaded {
        Ok(memory) => {
            print_runs(&memory);
            ExitCode::SUCCESS
        }
        Err(why) => {
            eprintln!("run: {why}");
            ExitCode::FAILURE
        }
    }
}

fn print_runs(memory: &[u8]) {
    for mode in [Mode::Plain, Mode::Deferred] {
        let mut state = State::new(0);
        let answer = run(&mut state, &mut memory.to_vec(), FUEL, mode);
        println!("{mode}: {answer}\n{state}");
    }
}

fn load(path: &str) -> Result<Vec<u8>, String> {
    let file = File::open(path).map_err(|error| error.to_string())?;
    let mut bytes = Vec::new();
    file.take(MEMORY_BYTES as u64 + 1).read_to_end(&mut bytes).map_err(|error| error.to_string())?;
    if bytes.len() > MEMORY_BYTES {
        return Err(format!("longer than {MEMORY_BYTES} bytes, which is all of memory"));
    }
    Ok(filled(bytes))
}

/// The bytes, then zeros.
fn filled(mut bytes: Vec<u8>) -> Vec<u8> {
    bytes.resize(MEMORY_BYTES, 0);
    bytes
}
