//! Ours beside plain Rust.

use std::process::ExitCode;

use super::effort::Effort;

/// Ours may take so many times as long as the plain Rust.
const MOST: f64 = 2.0;

/// A row, and the nanoseconds that both took.
pub struct Beside {
    pub row: String,
    pub plain: f64,
    pub ours: f64,
}

impl Beside {
    pub fn measured<S: ?Sized>(row: String, both: [&S; 2], effort: Effort, time: impl Fn(&S, u64) -> f64) -> Self {
        let least = effort.least_times(&both, time);
        Self { row, plain: least[0], ours: least[1] }
    }

    pub fn ratio(&self) -> f64 {
        self.ours / self.plain
    }

    /// The last three cells of the row in Markdown.
    pub fn cells(&self) -> String {
        format!("{:.1} | {:.1} | {:.2} |", self.plain, self.ours, self.ratio())
    }
}

/// Prints the worst ratio and each row that is too slow; fails where there is one.
pub fn verdict(rows: &[Beside]) -> ExitCode {
    println!("\nmost ours / plain Rust {:.2}", rows.iter().map(Beside::ratio).fold(0.0, f64::max));
    let mut status = ExitCode::SUCCESS;
    for slow in rows.iter().filter(|row| row.ratio() > MOST) {
        println!("TOO SLOW: {}: ours takes {:.2} times as long, over {MOST}", slow.row, slow.ratio());
        status = ExitCode::FAILURE;
    }
    status
}
