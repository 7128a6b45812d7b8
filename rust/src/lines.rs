//! A text's lines and the labels that they define, for what is said of a bad line.

use std::collections::HashMap;

/// The lines without their ends. A text that ends in a line end has no further line.
pub(crate) fn lines(text: &[u8]) -> impl Iterator<Item = &[u8]> {
    text.split_inclusive(|&byte| byte == b'\n').map(|line| match line {
        [line @ .., b'\r', b'\n'] | [line @ .., b'\n'] => line,
        _ => line,
    })
}

/// Where a label is first defined.
#[derive(Clone, Copy)]
pub(crate) struct Definition {
    pub line: usize,
    /// The instructions before it.
    pub index: usize,
}

/// The labels of a text, and how many instructions stand before a line of it.
pub(crate) struct Labels<'a> {
    pub defined: HashMap<&'a [u8], Definition>,
    pub before: usize,
}

impl<'a> Labels<'a> {
    /// Lines count from 1. One that is neither blank nor a label's definition counts as an instruction, right or wrong.
    pub(crate) fn of(text: &'a [u8], number: usize) -> Labels<'a> {
        let (mut labels, mut index) = (Labels { defined: HashMap::new(), before: 0 }, 0);
        for (line, bytes) in (1..).zip(lines(text)) {
            if line == number {
                labels.before = index;
            }
            if let Some(name) = defined_by(bytes) {
                labels.defined.entry(name).or_insert(Definition { line, index });
            } else if bytes.iter().any(|&byte| byte != b' ') {
                index += 1;
            }
        }
        labels
    }
}

/// The label that a line defines.
fn defined_by(line: &[u8]) -> Option<&[u8]> {
    let name = match trimmed(line) {
        [name @ .., b':'] => trimmed(name),
        _ => return None,
    };
    let is_name = name.first().map_or(false, u8::is_ascii_alphabetic) && name.iter().all(u8::is_ascii_alphanumeric);
    Some(name).filter(|_| is_name)
}

/// Without the spaces at both ends.
fn trimmed(line: &[u8]) -> &[u8] {
    let is_no_space = |&byte: &u8| byte != b' ';
    let start = line.iter().position(is_no_space).unwrap_or(line.len());
    let end = line.iter().rposition(is_no_space).map_or(start, |last| last + 1);
    &line[start..end]
}
