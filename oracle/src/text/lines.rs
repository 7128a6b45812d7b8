/// A line without its end and the spaces around it.
#[derive(Clone, Copy, Debug, PartialEq, Eq)]
pub enum Line<'t> {
    Blank,
    /// Of this label.
    Definition(&'t [u8]),
    /// Right or wrong: whatever is neither blank nor a definition.
    Instruction(&'t [u8]),
}

/// The lines of a text: each ends in LF or CR LF, the last one maybe in none.
pub fn lines(text: &[u8]) -> impl Iterator<Item = Line<'_>> {
    text.split_inclusive(|&byte| byte == b'\n').map(|line| Line::of(without_end(line)))
}

fn without_end(line: &[u8]) -> &[u8] {
    match line {
        [line @ .., b'\r', b'\n'] | [line @ .., b'\n'] => line,
        _ => line,
    }
}

impl<'t> Line<'t> {
    fn of(line: &'t [u8]) -> Self {
        let trimmed = without_spaces_before(without_spaces_behind(line));
        if trimmed.is_empty() {
            return Self::Blank;
        }
        match trimmed.strip_suffix(b":").map(without_spaces_behind) {
            Some(name) if is_label(name) => Self::Definition(name),
            _ => Self::Instruction(trimmed),
        }
    }
}

fn without_spaces_before(mut line: &[u8]) -> &[u8] {
    while let [b' ', rest @ ..] = line {
        line = rest;
    }
    line
}

fn without_spaces_behind(mut line: &[u8]) -> &[u8] {
    while let [rest @ .., b' '] = line {
        line = rest;
    }
    line
}

/// "a letter, then letters or digits".
fn is_label(name: &[u8]) -> bool {
    name.first().is_some_and(u8::is_ascii_alphabetic) && name.iter().all(u8::is_ascii_alphanumeric)
}
