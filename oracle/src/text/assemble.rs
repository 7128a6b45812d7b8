use std::collections::hash_map::{Entry, HashMap};

use crate::refusal::Refusal;
use crate::told::Told;

use super::instruction::instruction;
use super::lines::{lines, Line};
use super::NUMBERS_PER_LABEL;

/// Writes the words of the text into the front of `words`. The numbers of `labels` are only counted: they are the table
/// of an assembler that has no heap, and handed back all zeros.
pub fn assemble(text: &[u8], words: &mut [u8], labels: &mut [u64]) -> Told {
    labels.fill(0);
    let lines: Vec<Line> = lines(text).collect();
    let definitions = lines.iter().filter(|line| matches!(line, Line::Definition(_))).count();
    if labels.len() / NUMBERS_PER_LABEL < definitions {
        return Refusal::Malformed.into();
    }
    let program = match program(&lines, definitions) {
        Ok(program) => program,
        Err(bad) => return Refusal::BadLine { line: bad as u64 + 1 }.into(),
    };
    if words.len() / 4 < program.len() {
        return Refusal::Malformed.into();
    }
    for (bytes, word) in words.chunks_exact_mut(4).zip(&program) {
        bytes.copy_from_slice(&word.to_le_bytes());
    }
    Told::written(4 * program.len())
}

/// The words of the lines, or the place of the first bad line.
fn program(lines: &[Line], definitions: usize) -> Result<Vec<u32>, usize> {
    let Labels { addresses, repeated } = Labels::of(lines, definitions);
    let label = |name: &[u8]| addresses.get(name).copied();
    let mut program = Vec::with_capacity(lines.len());
    for (place, line) in lines.iter().enumerate().take(repeated.unwrap_or(lines.len())) {
        if let Line::Instruction(text) = line {
            let address = 4 * program.len() as i64;
            program.push(instruction(text, address, label).ok_or(place)?);
        }
    }
    repeated.map_or(Ok(program), Err)
}

struct Labels<'t> {
    /// Of each label by its first definition.
    addresses: HashMap<&'t [u8], i64>,
    /// The place of the first line that defines a label again.
    repeated: Option<usize>,
}

impl<'t> Labels<'t> {
    fn of(lines: &[Line<'t>], definitions: usize) -> Self {
        let mut labels = Self { addresses: HashMap::with_capacity(definitions), repeated: None };
        let mut address = 0;
        for (place, line) in lines.iter().enumerate() {
            match line {
                Line::Blank => {}
                Line::Instruction(_) => address += 4,
                Line::Definition(name) => match labels.addresses.entry(name) {
                    Entry::Vacant(free) => {
                        free.insert(address);
                    }
                    Entry::Occupied(_) => {
                        labels.repeated.get_or_insert(place);
                    }
                },
            }
        }
        labels
    }
}
