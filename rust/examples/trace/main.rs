//! Prints a zkIR program's run step by step: pc, word, the instruction, and what changed, registers with their limbs where
//! they have them, and bytes of memory.
//!
//!     cargo run --example trace -- [plain | deferred | both] [STEPS] FILE
//!
//! FILE holds the program's bytes, at most 65,536, which become the start of that much memory; at most STEPS steps are
//! taken, 1,000,000 without it. Of both modes the changes stand side by side, and the first step is named after which
//! a register's limbs differ and its value does not. `tools/run --trace` makes the bytes of a text or of a file of words.

use std::fmt;
use std::fs::File;
use std::io::{self, BufWriter, Read, Write};
use std::process::ExitCode;

use yokeglimmer::{print, step, Checks, Mode, Register, State, Stepped, REGISTERS};

const MEMORY_BYTES: usize = 65_536;
const STEPS: u64 = 1_000_000;
const USAGE: &str = "usage: trace [plain | deferred | both] [STEPS] FILE";

fn main() -> ExitCode {
    let traced = match request(std::env::args().skip(1).collect()) {
        Ok(request) => request.trace(&mut BufWriter::new(io::stdout().lock())),
        Err(why) => Err(io::Error::new(io::ErrorKind::Other, why)),
    };
    match traced {
        Err(error) if error.kind() != io::ErrorKind::BrokenPipe => {
            eprintln!("trace: {error}");
            ExitCode::FAILURE
        }
        _ => ExitCode::SUCCESS,
    }
}

/// What is to be traced.
struct Request {
    modes: Vec<Mode>,
    steps: u64,
    memory: Vec<u8>,
}

fn request(mut words: Vec<String>) -> Result<Request, String> {
    let path = words.pop().ok_or(USAGE)?;
    let mut request = Request { modes: vec![Mode::Plain], steps: STEPS, memory: Vec::new() };
    for word in words {
        match word.as_str() {
            "plain" => request.modes = vec![Mode::Plain],
            "deferred" => request.modes = vec![Mode::Deferred],
            "both" => request.modes = vec![Mode::Plain, Mode::Deferred],
            steps => request.steps = steps.parse().map_err(|_| format!("{steps}? {USAGE}"))?,
        }
    }
    request.memory = load(&path).map_err(|error| format!("{path}: {error}"))?;
    Ok(request)
}

/// The file's bytes, then zeros.
fn load(path: &str) -> Result<Vec<u8>, String> {
    let mut memory = Vec::new();
    let file = File::open(path).map_err(|error| error.to_string())?;
    file.take(MEMORY_BYTES as u64 + 1).read_to_end(&mut memory).map_err(|error| error.to_string())?;
    if memory.len() > MEMORY_BYTES {
        return Err(format!("longer than {MEMORY_BYTES} bytes, which is all of memory"));
    }
    memory.resize(MEMORY_BYTES, 0);
    Ok(memory)
}

impl Request {
    fn trace(&self, out: &mut impl Write) -> io::Result<()> {
        let mut runs: Vec<Run> = self.modes.iter().map(|&mode| Run::new(mode, &self.memory)).collect();
        let mut parted = false;
        for number in 1..=self.steps {
            let at = runs[0].instruction();
            let told: Vec<Told> = runs.iter_mut().map(Run::step).collect();
            let changes: Vec<String> = told.iter().map(|told| format!("{:<24}", told.changes)).collect();
            writeln!(out, "{}", format!("{number:>7}  {at}  {}", changes.join(" | ")).trim_end())?;
            if let ([plain, deferred], false) = (&runs[..], parted) {
                parted = tell_where_limbs_part(out, number, &plain.state, &deferred.state)?;
            }
            if let Some(stop) = told[0].stepped.stop() {
                return writeln!(out, "{stop}");
            }
        }
        writeln!(out, "not traced any further, after {} steps", self.steps)
    }
}

/// Whether some register's limbs differ and its value does not; then it is told.
fn tell_where_limbs_part(out: &mut impl Write, number: u64, plain: &State, deferred: &State) -> io::Result<bool> {
    let n = match limbs_alone_differ(plain, deferred) {
        Some(n) => n,
        None => return Ok(false),
    };
    let ([low, high], [other_low, other_high]) = (limbs(plain.register(n)), limbs(deferred.register(n)));
    writeln!(
        out,
        "         step {number} is the first after which limbs differ and no value: R{n} is {}, with the limbs {low} and \
         {high}, deferred {other_low} and {other_high}",
        plain.value(n)
    )?;
    Ok(true)
}

/// The first register whose limbs differ and whose value does not.
fn limbs_alone_differ(plain: &State, deferred: &State) -> Option<usize> {
    (0..REGISTERS)
        .find(|&n| plain.value(n) == deferred.value(n) && limbs(plain.register(n)) != limbs(deferred.register(n)))
}

/// A whole register's limbs are its bits 0 to 19 and 20 to 39.
fn limbs(register: Register) -> [u64; 2] {
    match register {
        Register::Whole(value) => [value % (1 << 20), (value >> 20) % (1 << 20)],
        Register::Accumulated { low, high } => [low, high],
    }
}

/// A run in one mode.
struct Run {
    mode: Mode,
    state: State,
    memory: Vec<u8>,
    /// Memory as it was told.
    told: Vec<u8>,
}

/// What a step did, and what it changed.
struct Told {
    stepped: Stepped,
    changes: String,
}

/// Where a step begins.
struct Instruction {
    pc: u64,
    word: Option<u32>,
}

impl Run {
    fn new(mode: Mode, memory: &[u8]) -> Run {
        Run { mode, state: State::new(0), memory: memory.to_vec(), told: memory.to_vec() }
    }

    fn instruction(&self) -> Instruction {
        let at = usize::try_from(self.state.pc()).unwrap_or(usize::MAX);
        let bytes = self.memory.get(at..at.saturating_add(4));
        let word = bytes.and_then(|bytes| bytes.try_into().ok()).map(u32::from_le_bytes);
        Instruction { pc: self.state.pc(), word }
    }

    fn step(&mut self) -> Told {
        let before = self.state.clone();
        let stepped = step(&mut self.state, &mut self.memory, self.mode, &mut Checks::none());
        let changed = (0..REGISTERS).filter(|&n| self.state.register(n) != before.register(n));
        let mut changes: Vec<String> = changed.map(|n| format!("R{n} = {}", self.state.register(n))).collect();
        changes.extend(self.changed_bytes());
        Told { stepped, changes: changes.join(", ") }
    }

    /// The bytes of memory that changed, from the first to the last.
    fn changed_bytes(&mut self) -> Option<String> {
        if self.memory == self.told {
            return None;
        }
        let differs = |at: &usize| self.memory[*at] != self.told[*at];
        let (first, last) = ((0..MEMORY_BYTES).find(differs)?, (0..MEMORY_BYTES).rev().find(differs)?);
        let changed = &self.memory[first..=last];
        self.told[first..=last].copy_from_slice(changed);
        let bytes: Vec<String> = changed.iter().map(|byte| format!("{byte:02X}")).collect();
        Some(format!("memory from {first}: {}", bytes.join(" ")))
    }
}

impl fmt::Display for Instruction {
    fn fmt(&self, f: &mut fmt::Formatter<'_>) -> fmt::Result {
        let (word, text) = match self.word {
            Some(word) => (format!("{word:08X}"), text_of(word)),
            None => ("-".to_string(), "nothing, beyond memory".to_string()),
        };
        write!(f, "pc {:<5}  {word:<8}  {text:<22}", self.pc)
    }
}

fn text_of(word: u32) -> String {
    print(&[word]).map_or("no instruction".to_string(), |text| text.trim_end().to_string())
}
