//! The commands `text` and `printed`: false where the subject differs.

use std::time::Instant;

use crate::calls::Calls;
use crate::parallel::by_all_processors;
use crate::random::Random;
use crate::text::{subject, TextSubject};

use super::compare::TextDifference;
use super::generate::{any, decodable};
use super::words::PrintedWords;
use super::SECTIONS;

pub fn texts(count: u64, seed: u64) -> bool {
    Calls { enumerated: "texts", sections: &SECTIONS, generated: any }.compare(subject(), count, seed)
}

pub fn printed(count: Option<u64>, seed: u64) -> bool {
    let (name, subject) = subject();
    let started = Instant::now();
    let parts = match count {
        None => by_all_processors(|words| compared(subject, words)),
        Some(count) => {
            let mut random = Random::seeded(seed);
            let any = |_| if random.chance(2) { random.draw() as u32 } else { decodable(&mut random) };
            vec![compared(subject, (0..count).map(any))]
        }
    };
    let asked = count.map_or("all 2^32 words".to_string(), |count| format!("{count} words of seed {seed}"));
    println!("{asked} printed, compared with {name} in {:.1} s", started.elapsed().as_secs_f64());
    let sum = |number: fn(&PrintedWords) -> u64| parts.iter().map(number).sum::<u64>();
    let (opcodes, bits) = (sum(|part| part.unknown_opcodes), sum(|part| part.unused_bits));
    println!("  printed and assembled {}, refused (4) {opcodes}, (5) {bits}", sum(|part| part.decodable));
    TextDifference::shown(parts.iter().find_map(|part| part.difference.as_ref()))
}

fn compared(subject: &dyn TextSubject, mut words: impl Iterator<Item = u32>) -> PrintedWords<'_> {
    let mut printed = PrintedWords::new(subject);
    if words.all(|word| printed.compare(word)) {
        printed.finish();
    }
    printed
}
