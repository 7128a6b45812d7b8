//! Programs from their texts.

use std::error::Error;
use std::fmt;

use crate::lines::lines;
use crate::mistake::Mistake;
use crate::raw;
use crate::reader::{what_is_wrong, Wrong};
use crate::stop::Refusal;

/// The words of a program's text, in the language of docs/LANGUAGE.md.
///
/// ```
/// use yokeglimmer::assemble;
///
/// let words = assemble("Addi R1, R0, 3\nagain:\nAddi R1, R1, -1\nBne R1, R0, again\nEbreak\n")?;
/// assert_eq!(words, [0x00018089, 0xffff8889, 0xfffe00aa, 0x00000032]);
///
/// let bad = assemble("Addi R1, R0, 3\nBne R1, R0, agian\n").unwrap_err();
/// assert_eq!(bad.to_string(), "line 2: Bne R1, R0, agian: no line defines this label (column 13: agian)");
/// # Ok::<(), yokeglimmer::BadLine>(())
/// ```
///
/// A file's bytes can be given as they are: one that is no text has a bad line.
///
/// # Panics
///
/// If the archive gives an answer that the rules have not, which is proved not to happen: then another one is linked.
pub fn assemble(text: impl AsRef<[u8]>) -> Result<Vec<u32>, BadLine> {
    let text = text.as_ref();
    let count = |wanted: u8| text.iter().filter(|&&byte| byte == wanted).count();
    // three numbers a label suffice; with twice the room labels are found sooner
    let (mut words, mut labels) = (vec![0; 4 * (count(b'\n') + 1)], vec![0; 6 * count(b':')]);
    let told = raw::assemble(text, &mut words, &mut labels);
    match told.code {
        0 => Ok(words_of(&words[..told.length as usize])),
        10 => Err(BadLine::of(text, told.particular as usize)),
        _ => panic!("the archive answered {told:?}, which is no answer for a text"),
    }
}

fn words_of(bytes: &[u8]) -> Vec<u32> {
    bytes.chunks_exact(4).map(|word| u32::from_le_bytes([word[0], word[1], word[2], word[3]])).collect()
}

/// The error of a text that is refused: its first bad line, and the first thing that is wrong with it. Later versions tell
/// more.
///
/// ```
/// use yokeglimmer::{assemble, Mistake};
///
/// let bad = assemble("Ebreak\n\nAddi R1, R0\n").unwrap_err();
/// assert_eq!((bad.line, bad.column, bad.text.as_str()), (3, 12, "Addi R1, R0"));
/// assert_eq!(bad.mistake, Mistake::NoOperand);
/// assert_eq!(bad.to_string(), "line 3: Addi R1, R0: an operand is missing (column 12: end of line)");
/// ```
#[derive(Clone, Debug, PartialEq, Eq, Hash)]
#[non_exhaustive]
pub struct BadLine {
    /// Its number, counted from 1.
    pub line: usize,
    /// Its text, without its end. What is not UTF-8 is replaced.
    pub text: String,
    /// What is wrong with it.
    pub mistake: Mistake,
    /// Where that is, in bytes of the line, counted from 1.
    pub column: usize,
}

impl BadLine {
    /// The refusal as a number and a particular: 10, and the line.
    ///
    /// ```
    /// use yokeglimmer::{assemble, Refusal};
    ///
    /// let bad = assemble("\n\n?").unwrap_err();
    /// assert_eq!(bad.refusal(), Refusal::BadLine { line: 3 });
    /// ```
    pub fn refusal(&self) -> Refusal {
        Refusal::BadLine { line: self.line as u64 }
    }

    fn of(text: &[u8], number: usize) -> BadLine {
        match (lines(text).nth(number.wrapping_sub(1)), what_is_wrong(text, number)) {
            (Some(line), Some(Wrong { mistake, at })) => {
                BadLine { line: number, text: String::from_utf8_lossy(line).into_owned(), mistake, column: at + 1 }
            }
            _ => panic!("the archive refused line {number}, and nothing is wrong there"),
        }
    }

    /// What stands at the column, or the value that does not fit.
    fn particular(&self) -> String {
        match self.mistake {
            Mistake::ForeignByte { byte: byte @ b'!'..=b'~' } => char::from(byte).to_string(),
            Mistake::ForeignByte { byte } => format!("byte {byte}"),
            Mistake::LargeImmediate { value } | Mistake::LargeOffset { value } | Mistake::LargeAmount { value } => {
                value.to_string()
            }
            _ => self.item(),
        }
    }

    /// A name or a number, with the sign before it, or one byte.
    fn item(&self) -> String {
        let left = &self.text[self.column - 1..];
        let signs = usize::from(left.starts_with(['+', '-']));
        let parts = left[signs..].find(|c: char| !c.is_ascii_alphanumeric()).unwrap_or(left.len() - signs);
        match (left.len(), parts) {
            (0, _) => "end of line".to_string(),
            (_, 0) => left[..1].to_string(),
            _ => left[..signs + parts].to_string(),
        }
    }
}

impl fmt::Display for BadLine {
    fn fmt(&self, f: &mut fmt::Formatter<'_>) -> fmt::Result {
        write!(f, "line {}: ", self.line)?;
        for c in self.text.chars() {
            match c.is_ascii_control() {
                true => write!(f, "{}", c.escape_default())?,
                false => write!(f, "{c}")?,
            }
        }
        write!(f, ": {} (column {}: {})", self.mistake, self.column, self.particular())
    }
}

impl Error for BadLine {}
