//! Breaks a run off after every ten steps, keeps the machine in a file, and goes on from the file alone, in both modes:
//! it ends as the unbroken run does.
//!
//!     cargo run --example checkpoint [FILE]
//!
//! With a FILE, which holds an image of a machine with 65,536 bytes of memory, it goes on from there, in the deferred mode
//! since that takes every state, or says what is wrong with the image.

use std::error::Error;
use std::fs;
use std::path::Path;
use std::process::ExitCode;

use yokeglimmer::{assemble, run, Checkpoint, Mode, Register, State, Stop, REGISTERS};

const MEMORY_BYTES: usize = 65_536;
const FUEL: u64 = 1_000_000;
const SITTING: u64 = 10;

/// Puts the sum of 1 to n at the start of page n. What sums leave in R1 and R3 nothing else reads: deferred, it stays in
/// limbs.
const PROGRAM: &str = "
    Addi R4, R0, 61440
    Addi R5, R0, -1
again:
    Addi R1, R1, 1
    Add R2, R2, R1
    Add R3, R3, R5
    Addi R6, R6, 4096
    Sw R6, R2, 0
    Bne R6, R4, again
    Ebreak
";

fn main() -> ExitCode {
    let named: Vec<String> = std::env::args().skip(1).collect();
    let done = match &named[..] {
        [] => compare_runs(),
        [path] => go_on(path).map_err(|why| format!("{path}: {why}").into()),
        _ => Err("usage: checkpoint [FILE]".into()),
    };
    match done {
        Ok(()) => ExitCode::SUCCESS,
        Err(why) => {
            eprintln!("checkpoint: {why}");
            ExitCode::FAILURE
        }
    }
}

fn compare_runs() -> Result<(), Box<dyn Error>> {
    let folder = std::env::temp_dir().join(format!("yokeglimmer-checkpoint-{}", std::process::id()));
    fs::create_dir(&folder)?;
    let compared = [Mode::Plain, Mode::Deferred].into_iter().try_for_each(|mode| compare(mode, &folder.join("image")));
    fs::remove_dir_all(&folder)?;
    compared
}

fn compare(mode: Mode, file: &Path) -> Result<(), Box<dyn Error>> {
    let mut unbroken = fresh()?;
    let answer = run(&mut unbroken.state, &mut unbroken.memory, FUEL, mode).or_refused()?;
    println!("{mode}, unbroken: {}", summary(answer.stop, answer.steps, &unbroken.state));
    println!("{mode}, broken off after every {SITTING} steps:");
    let (stop, steps, resumed) = run_in_sittings(mode, file)?;
    println!("{mode}, broken off: {}", summary(stop, steps, &resumed.state));
    if (stop, steps, &resumed) != (answer.stop, answer.steps, &unbroken) {
        return Err("the runs DIFFER".into());
    }
    println!("{mode}: state and memory are the same, byte for byte");
    Ok(())
}

/// Each sitting has nothing but the file that the one before it left.
fn run_in_sittings(mode: Mode, file: &Path) -> Result<(Stop, u64, Checkpoint), Box<dyn Error>> {
    let (mut machine, mut steps) = (fresh()?, 0);
    loop {
        let answer = run(&mut machine.state, &mut machine.memory, SITTING, mode).or_refused()?;
        steps += answer.steps;
        if answer.stop != Stop::Fuel {
            return Ok((answer.stop, steps, machine));
        }
        let image = Checkpoint::write(&machine.state, &machine.memory)?;
        println!("  {}", held(&image, steps, &machine.state));
        fs::write(file, image)?;
        machine = Checkpoint::read(&fs::read(file)?, MEMORY_BYTES)?;
    }
}

fn go_on(path: &str) -> Result<(), Box<dyn Error>> {
    let Checkpoint { mut state, mut memory } = Checkpoint::read(&fs::read(path)?, MEMORY_BYTES)?;
    let answer = run(&mut state, &mut memory, FUEL, Mode::Deferred);
    println!("{}: {answer}\n{state}", Mode::Deferred);
    Ok(())
}

/// The machine before the run.
fn fresh() -> Result<Checkpoint, Box<dyn Error>> {
    let mut memory: Vec<u8> = assemble(PROGRAM)?.iter().flat_map(|word| word.to_le_bytes()).collect();
    memory.resize(MEMORY_BYTES, 0);
    Ok(Checkpoint { state: State::new(0), memory })
}

fn summary(stop: Stop, steps: u64, state: &State) -> String {
    format!("{stop}; steps {steps}, pc {}, R2 {}, R3 {}", state.pc(), state.value(2), state.value(3))
}

fn held(image: &[u8], steps: u64, state: &State) -> String {
    let is_in_limbs = |n: &usize| matches!(state.register(*n), Register::Accumulated { .. });
    let limbs: Vec<String> = (0..REGISTERS).filter(is_in_limbs).map(|n| format!("R{n}")).collect();
    let limbs = if limbs.is_empty() { "none".to_string() } else { limbs.join(" ") };
    let pages = image[0] - 1; // the count of entries, without the state's
    format!("after {steps} steps, at pc {}: {pages} pages, {} bytes, in limbs {limbs}", state.pc(), image.len())
}
