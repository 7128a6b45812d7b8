//! Processor time of the plain writer and reader of checkpoints and of the subject, on the same machines in the same process.

use std::hint::black_box;

use zkir_runtime::state::Held;

use crate::calls::Compared;
use crate::case::Case;
use crate::checkpoint::{CheckpointSubject, OracleCheckpoint, MOST_MEMORY, PAGE_BYTES};
use crate::checkpoint_calls::{Call, Lent, Machine, What};
use crate::machine::Mode;

use super::beside::Beside;
use super::clock;
use super::effort::Effort;

const PAGES: usize = MOST_MEMORY / PAGE_BYTES;

/// A call that is measured, by what its memory holds.
pub struct CheckpointRow {
    pub name: &'static str,
    pub held: &'static str,
    pub call: Call,
}

/// Each of four memories of 64 KiB written and read.
pub fn checkpoint_rows() -> Vec<CheckpointRow> {
    let full = |at: usize| (at, (at % 255) as u8 + 1);
    let last = (0..PAGES).map(|page| (PAGE_BYTES * (page + 1) - 1, 1));
    let memories = [
        ("all bytes of 16 pages", Machine::holding(PAGES, (0..MOST_MEMORY).map(full))),
        ("the last byte of 16 pages", Machine::holding(PAGES, last)),
        ("nothing", Machine::fresh(PAGES)),
        ("all bytes of one page", Machine::holding(PAGES, (MOST_MEMORY / 2..).take(PAGE_BYTES).map(full))),
    ];
    let mut rows = Vec::new();
    for (held, mut machine) in memories {
        machine.state = state();
        let reading = Call::read(machine.image(), MOST_MEMORY);
        rows.push(CheckpointRow { name: "write", held, call: Call::write(machine) });
        rows.push(CheckpointRow { name: "read", held, call: reading });
    }
    rows
}

/// Every register holds something, every other one in limbs.
fn state() -> Vec<u8> {
    let mut case = Case::new(Mode::Deferred, vec![], 0);
    for register in 1..16 {
        let held = if register % 2 == 1 { Held::Accumulated([1 << 25, 1 << 29]) } else { Held::Whole(u64::MAX) };
        case.set_register(register, held, 40);
    }
    case.state
}

/// Prints a table in Markdown, a line as soon as its row is measured.
pub fn print_checkpoint_table(ours: &dyn CheckpointSubject, effort: Effort) -> Vec<Beside> {
    println!("least of {} rounds of {} calls, processor time of the thread\n", effort.rounds, effort.count);
    println!("| Call | 64 KiB that hold | Plain Rust, ns a call | Ours, ns a call | Ours / plain Rust |");
    println!("|---|---|---|---|---|");
    let measured = checkpoint_rows().into_iter().map(|row| {
        let measured = row.measured(ours, effort);
        println!("| {} | {} | {}", row.name, row.held, measured.cells());
        measured
    });
    measured.collect()
}

impl CheckpointRow {
    fn measured(&self, ours: &dyn CheckpointSubject, effort: Effort) -> Beside {
        let title = format!("{}, {}", self.name, self.held);
        let both: [&dyn CheckpointSubject; 2] = [&OracleCheckpoint, ours];
        let left = both.map(|subject| self.call.through(subject));
        assert!(left[0] == left[1] && left[0].told.code == 0, "{title}: subjects differ");
        Beside::measured(title, both, effort, |subject, calls| self.time(subject, calls))
    }

    /// Nanoseconds of processor time per call.
    fn time(&self, subject: &dyn CheckpointSubject, calls: u64) -> f64 {
        let Lent { mut state, mut memory, mut image } = self.call.lent.clone();
        let started = clock::nanoseconds();
        for _ in 0..calls {
            let told = match self.call.what {
                What::Write => subject.write(black_box(&state), black_box(&memory), &mut image),
                What::Read => subject.read(black_box(&image), &mut state, &mut memory),
            };
            assert_eq!(told.code, 0, "what is measured is not refused");
        }
        (clock::nanoseconds() - started) as f64 / calls as f64
    }
}
