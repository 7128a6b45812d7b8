//! Processor time of the plain assembler and printer and of the subject, on the same texts in the same process.

use crate::assemble::{image, word};
use crate::calls::Compared;
use crate::random::Random;
use crate::text::{OracleText, TextSubject};
use crate::text_calls::{Call, What};
use crate::told::Told;
use zkir_spec::Opcode;

use super::beside::Beside;
use super::clock;
use super::effort::Effort;

/// A call that is measured; a print has a line for each word.
pub struct TextRow {
    pub name: &'static str,
    pub lines: usize,
    pub labels: usize,
    pub call: Call,
}

pub fn text_rows() -> Vec<TextRow> {
    let printed = printed(16_000);
    vec![
        TextRow::labelled(1_000),
        TextRow::labelled(4_000),
        TextRow::labelled(16_000),
        TextRow { name: "assemble a print", lines: 16_000, labels: 0, call: assembling(&printed) },
        TextRow { name: "print", lines: 16_000, labels: 0, call: printed },
    ]
}

/// Prints a table in Markdown, a line as soon as its row is measured.
pub fn print_text_table(ours: &dyn TextSubject, effort: Effort) -> Vec<Beside> {
    println!("least of {} rounds of {} lines, processor time of the thread\n", effort.rounds, effort.count);
    println!("| Call | Lines | Labels | Plain Rust, ns a line | Ours, ns a line | Ours / plain Rust |");
    println!("|---|---|---|---|---|---|");
    let measured = text_rows().into_iter().map(|row| {
        let measured = row.measured(ours, effort);
        println!("| {} | {} | {} | {}", row.name, row.lines, row.labels, measured.cells());
        measured
    });
    measured.collect()
}

impl TextRow {
    fn labelled(lines: usize) -> Self {
        let labels = lines * 5 / 16;
        let mut call = Call::assemble(labelled(lines, labels));
        call.labels.resize(6 * labels, 0); // as the Rust package lends: twice what suffices
        Self { name: "assemble", lines, labels, call }
    }

    fn measured(&self, ours: &dyn TextSubject, effort: Effort) -> Beside {
        let title = format!("{}, {} lines", self.name, self.lines);
        let both: [&dyn TextSubject; 2] = [&OracleText, ours];
        let left = both.map(|subject| self.call.through(subject));
        assert!(left[0] == left[1] && left[0].told.code == 0, "{title}: subjects differ");
        Beside::measured(title, both, effort, |subject, lines| self.time(subject, lines))
    }

    /// Nanoseconds of processor time per line.
    fn time(&self, subject: &dyn TextSubject, lines: u64) -> f64 {
        let Call { what, given, mut output, mut labels } = self.call.clone();
        let calls = (lines / self.lines as u64).max(1);
        let started = clock::nanoseconds();
        for _ in 0..calls {
            let Told { code, .. } = match what {
                What::Assemble => subject.assemble(&given, &mut output, &mut labels),
                What::Print => subject.print(&given, &mut output),
            };
            assert_eq!(code, 0, "what is measured is not refused");
        }
        (clock::nanoseconds() - started) as f64 / (calls * self.lines as u64) as f64
    }
}

/// A program in which every line that defines no label names one: as a branch's or a jump's target, near most of the time,
/// or as an address.
fn labelled(lines: usize, labels: usize) -> Vec<u8> {
    let mut random = Random::seeded(1);
    let mut text = String::new();
    let mut defined = 0;
    for line in 0..lines {
        if (line + 1) * labels / lines > defined {
            text += &format!("label{defined}:\n");
            defined += 1;
            continue;
        }
        let near = (defined as i64 + random.between(-8, 8)).clamp(0, labels as i64 - 1);
        let label = if random.chance(4) { random.below(labels as u64) as i64 } else { near };
        let [a, b] = [random.below(16), random.below(16)];
        text += &match random.below(8) {
            0 => format!("    Addi R{a}, R{b}, label{label}\n"),
            1 => format!("    Lw R{a}, R{b}, label{label} + 4\n"),
            2 => format!("    Sw R{a}, R{b}, label{label} - 8\n"),
            3 => format!("    Jal R{a}, label{label}\n"),
            4 => format!("    Bne R{a}, R{b}, label{label}\n"),
            5 => format!("    Bltu R{a}, R{b}, label{label}\n"),
            _ => format!("    Beq R{a}, R{b}, label{label}\n"),
        };
    }
    text.into_bytes()
}

/// The print of so many words, of all opcodes alike.
fn printed(words: usize) -> Call {
    let mut random = Random::seeded(2);
    let any = |_| {
        let registers = [0; 3].map(|_| random.below(16) as u32);
        word(random.pick(&Opcode::ALL), registers, random.between(-65536, 65535) as i32)
    };
    let words: Vec<u32> = (0..words).map(any).collect();
    Call::print(image(&words, 4 * words.len()))
}

/// The assembling of what a print leaves.
fn assembling(print: &Call) -> Call {
    let left = print.through(&OracleText);
    Call::assemble(left.output[..left.told.length as usize].to_vec())
}
