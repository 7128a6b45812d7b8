//! `bench [--ours FILE] [--beside FILE] [ROUNDS [COUNT]]`: what `tools/bench` measures, COUNT instructions a round. The
//! files are shared objects: of ours, in place of the archive that is linked, and of another build to be measured beside
//! it. A program of its own, so that the compiler sees no other caller of what is measured.

use std::env;
use std::process::ExitCode;

use oracle::bench::{print, Effort, Shared, Subjects};
use oracle::subject::{subject, Subject};

fn main() -> ExitCode {
    let mut arguments: Vec<String> = env::args().skip(1).collect();
    let ours = shared("--ours", &mut arguments);
    let beside = shared("--beside", &mut arguments);
    let effort = Effort::of(&arguments, 2_000_000);
    let (name, linked) = subject();
    println!("ours: {}", if ours.is_some() { "a shared object" } else { name });
    let ours = ours.as_ref().map_or(linked, |shared| shared as &dyn Subject);
    let summary = print(&Subjects { ours, beside: beside.as_ref().map(|shared| shared as &dyn Subject) }, effort);
    println!("\nof the rows per instruction: least published / ours {:.2}", summary.least_published_by_ours);
    println!("most ours / by hand {:.2}", summary.most_ours_by_hand);
    for slow in &summary.too_slow {
        println!("TOO SLOW: {slow}");
    }
    if summary.too_slow.is_empty() {
        ExitCode::SUCCESS
    } else {
        ExitCode::FAILURE
    }
}

/// The shared object named behind this word; both are taken off the arguments.
fn shared(word: &str, arguments: &mut Vec<String>) -> Option<Shared> {
    let at = arguments.iter().position(|argument| argument == word)?;
    arguments.remove(at);
    assert!(at < arguments.len(), "{word}: no file is named");
    let path = arguments.remove(at);
    // SAFETY: whoever names the file says that it is a build of ours.
    Some(unsafe { Shared::open(&path) }.unwrap_or_else(|| panic!("{path}: no shared object with zkir_run")))
}
