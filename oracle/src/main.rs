//! The commands of the oracle; the README says how to call them.

use std::env;
use std::io::Read;
use std::process::ExitCode;
use std::time::Instant;

use oracle::checkpoint_calls;
use oracle::compare::Comparer;
use oracle::generate;
use oracle::inside::{self, InsideComparer};
use oracle::interpreter::Interpreter;
use oracle::machine::Mode;
use oracle::numbers;
use oracle::parallel::by_all_processors;
use oracle::programs::printed;
use oracle::random::Random;
use oracle::subject::{subject, Subject};
use oracle::sweep::{Share, LARGE, SMALL};
use oracle::text_calls;
use oracle::vectors;
use oracle::words::{self, keeps_laws};

/// A subject and what it is called.
type Named = (&'static str, &'static dyn Subject);

const USAGE: &str = "usage: oracle COMMAND
  published               the published files that were compiled: name, length, hash
  run COUNT [SEED]        compares COUNT generated calls
  sweep [ONE_IN [SEED]]   compares the enumerated calls of one step, or one in so many
  interpreter [COUNT [ONE_IN [SEED]]] the same two with the interpreter written by hand
  words [COUNT [SEED]]    compares all 2^32 words, or COUNT random ones, and tests the laws of words
  functions [COUNT [SEED]] compares each function of numbers on corners and on COUNT drawn arguments
  inside COUNT [SEED]     compares COUNT calls of what the host call does not reach, generated but for corners
  text COUNT [SEED]       compares the enumerated texts and COUNT generated calls of assembler and printer
  printed [COUNT [SEED]]  compares the prints of all 2^32 words, or of COUNT random ones, and what they assemble to
  checkpoint COUNT [SEED] compares the enumerated and COUNT generated calls that write and read checkpoints
  vectors FILE            writes the fixed list of the oracle's answers
  lines FILE COUNT [SEED] writes COUNT generated calls in the same form
  replay FILE             replays such a list through the subject
  plain, deferred         prints what the program of that name prints for standard input";

fn main() -> ExitCode {
    let arguments: Vec<String> = env::args().skip(1).collect();
    let number = |at: usize| arguments.get(at).map(|text| text.parse::<u64>().expect("a number"));
    let seed = |at: usize| number(at).unwrap_or_else(seed_of_the_clock);
    let agreed = match arguments.first().map(String::as_str) {
        Some("published") => published(),
        Some("run") => run(number(1).unwrap_or(100_000), seed(2), subject()),
        Some("sweep") => sweep(number(1).unwrap_or(1), seed(2), subject()),
        Some("interpreter") => by_hand(number(1).unwrap_or(100_000), number(2).unwrap_or(40), seed(3)),
        Some("words") => words(number(1), seed(2)),
        Some("functions") => functions(number(1).unwrap_or(10_000), seed(2)),
        Some("inside") => inside(number(1).unwrap_or(100_000), seed(2)),
        Some("text") => text_calls::texts(number(1).unwrap_or(100_000), seed(2)),
        Some("printed") => text_calls::printed(number(1), seed(2)),
        Some("checkpoint") => checkpoint_calls::checkpoints(number(1).unwrap_or(50_000), seed(2)),
        Some("vectors") if arguments.len() == 2 => write_lines(&arguments[1], vectors::file()),
        Some("lines") if arguments.len() >= 3 => {
            write_lines(&arguments[1], vectors::generated_file(number(2).unwrap_or(0), seed(3)))
        }
        Some("replay") if arguments.len() == 2 => replay(&arguments[1]),
        Some("plain") => print_program(Mode::Plain),
        Some("deferred") => print_program(Mode::Deferred),
        _ => {
            eprintln!("{USAGE}");
            return ExitCode::from(2);
        }
    };
    if agreed {
        ExitCode::SUCCESS
    } else {
        ExitCode::FAILURE
    }
}

fn seed_of_the_clock() -> u64 {
    let now = std::time::SystemTime::now().duration_since(std::time::UNIX_EPOCH);
    now.map_or(0, |since| since.as_nanos() as u64 % 1_000_000_000)
}

fn published() -> bool {
    for (name, length, hash) in zkir_spec::PUBLISHED.iter().chain(zkir_runtime::PUBLISHED) {
        println!("{name} {length} bytes {hash:016x}");
    }
    true
}

fn run(count: u64, seed: u64, named: Named) -> bool {
    println!("{count} generated calls, seed {seed}");
    compared(named, |comparer| {
        let mut random = Random::seeded(seed);
        for _ in 0..count {
            if !comparer.compare(&generate::any(&mut random)) {
                return;
            }
        }
    })
}

fn sweep(one_in: u64, seed: u64, named: Named) -> bool {
    println!("enumerated calls, one in {one_in} of the large sections, seed {seed}");
    compared(named, |comparer| {
        let small = SMALL.map(|section| (section, Share::all()));
        let large = LARGE.map(|section| (section, Share::one_in(one_in, seed)));
        for ((name, section), mut share) in small.into_iter().chain(large) {
            let before = comparer.compared;
            section(&mut share, &mut |case| {
                comparer.compare(&case);
            });
            println!("  {name}: {}", comparer.compared - before);
        }
    })
}

/// Generated and enumerated calls through the interpreter written by hand, whatever the subject is.
fn by_hand(count: u64, one_in: u64, seed: u64) -> bool {
    const NAMED: Named = ("the interpreter written by hand", &Interpreter);
    sweep(one_in, seed, NAMED) && run(count, seed, NAMED)
}

/// Compares with the subject and prints what was met; false where they differ.
fn compared((name, subject): Named, calls: impl FnOnce(&mut Comparer)) -> bool {
    let mut comparer = Comparer::new(subject);
    let started = Instant::now();
    calls(&mut comparer);
    let tally = &comparer.tally;
    println!("compared with {name}: {} calls in {:.1} s", comparer.compared, started.elapsed().as_secs_f64());
    println!("  inside the domain, where the published text alone judges: {}", comparer.inside_the_domain);
    println!("  instructions: {}", tally.instructions());
    println!("  forced sums {}, borrows {}, sources normalised {}", tally.forced, tally.borrows, tally.settled);
    let stops = (0..66).filter(|&code| tally.stopped(code) > 0);
    println!("  stops:{}", stops.map(|code| format!(" {code}: {}", tally.stopped(code))).collect::<Vec<_>>().join(","));
    match &comparer.difference {
        None => println!("no difference"),
        Some(difference) => println!("{difference}"),
    }
    comparer.difference.is_none()
}

fn words(count: Option<u64>, seed: u64) -> bool {
    let (name, subject) = words::subject();
    let wrong = |word: u32| !keeps_laws(word) || !words::agrees(word, &*subject);
    let started = Instant::now();
    let found = match count {
        None => all_words(&wrong),
        Some(count) => {
            let mut random = Random::seeded(seed);
            (0..count).map(|_| random.draw() as u32).find(|&word| wrong(word))
        }
    };
    let asked = count.map_or("all 2^32 words".to_string(), |count| format!("{count} words of seed {seed}"));
    match found {
        None => println!("{asked} compared with {name} in {:.1} s: no difference", started.elapsed().as_secs_f64()),
        Some(word) if !keeps_laws(word) => println!("word {word:08x} breaks a law of the oracle's own"),
        Some(word) => println!("{}", words::shrunk(word, &*subject)),
    }
    found.is_none()
}

/// The least word that is wrong.
fn all_words(wrong: &(impl Fn(u32) -> bool + Sync)) -> Option<u32> {
    by_all_processors(|mut words| words.find(|&word| wrong(word))).into_iter().flatten().next()
}

fn functions(count: u64, seed: u64) -> bool {
    let mut random = Random::seeded(seed);
    let (mut asked, mut compared) = (0, 0);
    for function in numbers::functions() {
        match numbers::compare(function, numbers::subject(function), count, &mut random) {
            Ok(more) => compared += more,
            Err(difference) => {
                println!("{difference}");
                return false;
            }
        }
        asked += 1;
    }
    let (name, _) = words::subject();
    println!("{asked} functions of numbers, seed {seed}, compared with {name}: {compared} answers, no difference");
    true
}

fn inside(count: u64, seed: u64) -> bool {
    let (name, subject) = inside::subject();
    let mut comparer = InsideComparer::new(subject);
    let mut random = Random::seeded(seed);
    let started = Instant::now();
    inside::at_the_ends().iter().all(|call| comparer.compare(call));
    while comparer.compared < count && comparer.compare(&inside::generated(&mut random)) {}
    let (compared, seconds) = (comparer.compared, started.elapsed().as_secs_f64());
    println!("{compared} calls inside the library, seed {seed}, compared with {name} in {seconds:.1} s");
    let met = (0..66).filter(|&code| comparer.codes[code] > 0).map(|code| format!(" {code}: {}", comparer.codes[code]));
    println!("  checks appended {}, codes:{}", comparer.appended, met.collect::<Vec<_>>().join(","));
    match &comparer.difference {
        None => println!("no difference"),
        Some(difference) => println!("{difference}"),
    }
    comparer.difference.is_none()
}

fn write_lines(path: &str, text: String) -> bool {
    std::fs::write(path, &text).unwrap_or_else(|error| panic!("{path}: {error}"));
    println!("{path}: {} lines, {} bytes", text.lines().count(), text.len());
    true
}

fn replay(path: &str) -> bool {
    let text = std::fs::read_to_string(path).unwrap_or_else(|error| panic!("{path}: {error}"));
    let (name, subject) = subject();
    let replayed = vectors::replay(&text, subject);
    match replayed.first_wrong_line {
        None => println!("{} calls replayed through {name}: no difference", replayed.calls),
        Some(line) => println!("{path}:{line}: {name} leaves something else"),
    }
    replayed.first_wrong_line.is_none()
}

fn print_program(mode: Mode) -> bool {
    let mut input = Vec::new();
    std::io::stdin().take(65537).read_to_end(&mut input).expect("standard input can be read");
    print!("{}", printed(&input, mode));
    true
}
