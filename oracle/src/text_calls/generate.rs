//! Generated calls.

use zkir_spec::Opcode;

use crate::assemble::{image, word};
use crate::random::Random;
use crate::text::LONGEST_LINE;

use super::author::{Author, Label, Spacing};
use super::call::{Call, Needs, What};
use super::damage::damage;

/// A call of either kind, most of them of the assembler: half of its texts are damaged.
pub fn any(random: &mut Random) -> Call {
    match random.below(8) {
        0 => printing(random),
        1..=4 => assembling(program(random), random),
        _ => {
            let mut text = program(random);
            for _ in 0..random.between(1, 2) {
                damage(&mut text, random);
            }
            assembling(text, random)
        }
    }
}

#[derive(Clone, Copy)]
enum Kind {
    Blank,
    Definition,
    Instruction,
}

/// A program that is right but for a number or a sum now and then.
pub fn program(random: &mut Random) -> Vec<u8> {
    let (kinds, labels) = sketch(random);
    let spacing = random.pick(&[Spacing::None, Spacing::AsPrinted, Spacing::Any]);
    let ends: &[&str] = random.pick(&[&["\n"] as &[&str], &["\n"], &["\r\n"], &["\n", "\r\n"]]);
    let ends_in_none = random.chance(4);
    let mut author = Author::new(random, &labels, spacing);
    let (mut address, mut defined) = (0, 0);
    for (place, kind) in kinds.iter().enumerate() {
        match kind {
            Kind::Blank => author.gap(0),
            Kind::Definition => {
                author.gap(0);
                author.write(&labels[defined].name);
                author.gap(0);
                author.write(":");
                author.gap(0);
                defined += 1;
            }
            Kind::Instruction => {
                author.instruction(address);
                address += 4;
            }
        }
        if place + 1 < kinds.len() || !ends_in_none {
            let end = author.random.pick(ends);
            author.write(end);
        }
    }
    author.text
}

/// What the lines of a program are, and its labels in the order of their definitions.
fn sketch(random: &mut Random) -> (Vec<Kind>, Vec<Label>) {
    let most = if random.chance(200) { 600 } else { random.pick(&[6, 24, 40, 80]) };
    let (mut kinds, mut labels, mut address) = (Vec::new(), Vec::<Label>::new(), 0);
    for _ in 0..random.below(most + 1) {
        let kind =
            random.pick(&[Kind::Blank, Kind::Definition, Kind::Definition, Kind::Instruction, Kind::Instruction]);
        if let Kind::Definition = kind {
            let name = label_name(random);
            if labels.iter().any(|label| label.name == name) {
                continue;
            }
            labels.push(Label { name, address });
        }
        address += if let Kind::Instruction = kind { 4 } else { 0 };
        kinds.push(kind);
    }
    (kinds, labels)
}

/// Names that are short, that look like something else, and that differ only far behind.
pub fn label_name(random: &mut Random) -> Vec<u8> {
    const STEMS: [&str; 8] = ["label", "loop", "abcdefg", "abcdefgh", "abcdefghi", "Abcdefgh", "abcdefghabcdefgh", "R"];
    const WHOLE: [&str; 8] = ["x", "X", "xx", "R1", "R15", "Add", "Ebreak", "Z9"];
    let name = match random.below(4) {
        0 => random.pick(&WHOLE).to_string(),
        1 => random.pick(&STEMS).to_string(),
        2 => format!("{}{}", random.pick(&STEMS), random.below(1000)),
        _ => {
            format!("{}{}", random.pick(&STEMS), random.pick(&["a", "z", "A", "Z", "0", "9", "aa", "a0", "zzzzzzzzz"]))
        }
    };
    name.into_bytes()
}

/// A text with what is lent: mostly enough, and filled with anything.
fn assembling(text: Vec<u8>, random: &mut Random) -> Call {
    let Needs { bytes, numbers } = Needs::of(&text);
    let output = random.near(bytes, 4);
    let numbers = random.near(numbers, 3);
    let labels = (0..numbers).map(|_| if random.chance(4) { 0 } else { random.draw() }).collect();
    Call { what: What::Assemble, given: text, output: random.bytes(output), labels }
}

/// Words that mostly decode, now and then a byte or more too long.
fn printing(random: &mut Random) -> Call {
    let mut words: Vec<u32> = (0..random.below(20)).map(|_| decodable(random)).collect();
    if random.chance(3) {
        for _ in 0..random.between(1, 3).min(words.len() as i64) {
            let place = random.below(words.len() as u64) as usize;
            words[place] = if random.chance(2) { random.draw() as u32 } else { words[place] | 1 << random.below(32) };
        }
    }
    let length = 4 * words.len() + random.pick(&[0, 0, 0, 0, 0, 0, 0, 1, 2, 3]);
    let call = Call::print(image(&words, length));
    let output = random.near(call.output.len(), LONGEST_LINE);
    Call { output: random.bytes(output), ..call }
}

/// A word of any opcode.
pub fn decodable(random: &mut Random) -> u32 {
    let registers = [0; 3].map(|_| random.below(16) as u32);
    word(random.pick(&Opcode::ALL), registers, random.draw() as i32)
}
