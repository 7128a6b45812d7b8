//! Processor time of the published Rust, of the interpreter written by hand and of the subject, on the same programs in
//! the same process. Subjects take turns, and the least of the rounds counts: what disturbs a round only lengthens it.

mod beside;
mod checkpoint;
mod clock;
mod effort;
mod row;
mod shared;
mod text;
mod workloads;

use crate::interpreter::Interpreter;
use crate::subject::{Oracle, Subject};

pub use beside::{verdict, Beside};
pub use checkpoint::{checkpoint_rows, print_checkpoint_table, CheckpointRow};
pub use effort::Effort;
pub use row::{rows, Row};
pub use shared::Shared;
pub use text::{print_text_table, text_rows, TextRow};

/// Instructions after which all subjects must have left the same, before anything is measured.
const AGREEMENT: u64 = 50_000;

/// The subjects of a table besides the published Rust and the interpreter written by hand.
pub struct Subjects<'s> {
    pub ours: &'s dyn Subject,
    /// Another build of ours.
    pub beside: Option<&'s dyn Subject>,
}

/// What a row took, in nanoseconds.
struct Times {
    published: f64,
    by_hand: f64,
    ours: f64,
    beside: Option<f64>,
}

/// Over the rows that count instructions: the extreme ratios, and where ours takes longer than it may.
pub struct Summary {
    pub least_published_by_ours: f64,
    pub most_ours_by_hand: f64,
    pub too_slow: Vec<String>,
}

/// Prints a table in Markdown, a line as soon as its row is measured.
pub fn print(subjects: &Subjects, effort: Effort) -> Summary {
    print_head(subjects.beside.is_some(), effort);
    let mut summary = Summary { least_published_by_ours: f64::INFINITY, most_ours_by_hand: 0.0, too_slow: Vec::new() };
    for row in rows() {
        let times = measured(&row, subjects, effort);
        print_row(&row, &times);
        if let Some(most) = row.most {
            summary.take(&row, &times, most);
        }
    }
    summary
}

impl Summary {
    fn take(&mut self, row: &Row, times: &Times, most: f64) {
        self.least_published_by_ours = self.least_published_by_ours.min(times.published / times.ours);
        self.most_ours_by_hand = self.most_ours_by_hand.max(times.ours / times.by_hand);
        let ratio = times.ours / times.published;
        if ratio > most {
            let Row { name, mode, .. } = row;
            self.too_slow.push(format!("{name}, {mode:?}: ours takes {ratio:.2} times as long, over {most}"));
        }
    }
}

fn print_head(beside: bool, effort: Effort) {
    println!("least of {} rounds of {} instructions, processor time of the thread\n", effort.rounds, effort.count);
    print!("| Workload | Mode | ns per | Published Rust | By hand | Ours | Published / ours | Ours / by hand |");
    println!("{}", if beside { " Beside | Ours / beside |" } else { "" });
    println!("|---|---|---|---|---|---|---|---|{}", if beside { "---|---|" } else { "" });
}

fn print_row(row: &Row, times: &Times) {
    let Times { published, by_hand, ours, beside } = times;
    print!("| {} | {:?} | {} |", row.name, row.mode, row.pace.unit());
    print!(" {published:.1} | {by_hand:.1} | {ours:.1} | {:.2} | {:.2} |", published / ours, ours / by_hand);
    if let Some(beside) = beside {
        print!(" {beside:.1} | {:.2} |", ours / beside);
    }
    println!();
}

fn measured(row: &Row, subjects: &Subjects, effort: Effort) -> Times {
    let always: [&dyn Subject; 3] = [&Oracle, &Interpreter, subjects.ours];
    let least = least_times(row, &always.into_iter().chain(subjects.beside).collect::<Vec<_>>(), effort);
    Times { published: least[0], by_hand: least[1], ours: least[2], beside: least.get(3).copied() }
}

fn least_times(row: &Row, subjects: &[&dyn Subject], effort: Effort) -> Vec<f64> {
    for other in &subjects[1..] {
        assert!(row.agree(subjects[0], *other, AGREEMENT), "{}, {:?}: subjects differ", row.name, row.mode);
    }
    effort.least_times(subjects, |subject, instructions| row.time(subject, instructions))
}
