//! The texts of programs.

use std::error::Error;
use std::fmt;

use crate::raw::{self, Told};
use crate::stop::Refusal;

/// A word's print has at most so many bytes, its line's end included.
///
/// ```
/// assert_eq!(yokeglimmer::PRINTED_BYTES, "Addi R15, R15, -65536\n".len());
/// ```
pub const PRINTED_BYTES: usize = 22;

/// The text of a program's words, a line for each. Assembled, it is these words again.
///
/// ```
/// use yokeglimmer::{assemble, print};
///
/// let text = print(&[0xffff8089, 0x00041927, 0xffffe7af, 0x00000032])?;
/// assert_eq!(text, "Addi R1, R0, -1\nSw R2, R3, 8\nJal R15, -4\nEbreak\n");
/// assert_eq!(assemble(&text), Ok(vec![0xffff8089, 0x00041927, 0xffffe7af, 0x00000032]));
/// # Ok::<(), yokeglimmer::BadWord>(())
/// ```
///
/// # Panics
///
/// If the archive gives an answer that the rules have not, which is proved not to happen: then another one is linked.
pub fn print(words: &[u32]) -> Result<String, BadWord> {
    let bytes: Vec<u8> = words.iter().flat_map(|word| word.to_le_bytes()).collect();
    let mut text = vec![0; PRINTED_BYTES * words.len()];
    let told = raw::print(&bytes, &mut text);
    text.truncate(told.length as usize);
    match (told.code, String::from_utf8(text), BadWord::of(words, told)) {
        (0, Ok(text), _) => Ok(text),
        (4 | 5, _, Some(bad)) => Err(bad),
        _ => panic!("the archive answered {told:?}, which is no answer for words"),
    }
}

/// The error of words that are refused: the first that is no instruction. Later versions tell more.
///
/// ```
/// use yokeglimmer::{print, Refusal};
///
/// let bad = print(&[0x32, 0x33]).unwrap_err();
/// assert_eq!((bad.refusal, bad.address), (Refusal::BadOpcode { word: 0x33 }, 4));
/// assert_eq!(bad.to_string(), "refused 4: the word's opcode is 0 or over 50 (word 0x00000033) at address 4");
/// ```
#[derive(Clone, Copy, Debug, PartialEq, Eq, Hash)]
#[non_exhaustive]
pub struct BadWord {
    /// Why the word is no instruction.
    pub refusal: Refusal,
    /// Where it is: the first word is at 0, the next at 4.
    pub address: u64,
}

impl BadWord {
    /// The particular is the word: where it first stands, it is refused.
    fn of(words: &[u32], told: Told) -> Option<BadWord> {
        let place = words.iter().position(|&word| u64::from(word) == told.particular)?;
        let refusal = Refusal::of_word(told.code, words[place])?;
        Some(BadWord { refusal, address: 4 * place as u64 })
    }
}

impl fmt::Display for BadWord {
    fn fmt(&self, f: &mut fmt::Formatter<'_>) -> fmt::Result {
        write!(f, "{} at address {}", self.refusal, self.address)
    }
}

impl Error for BadWord {
    fn source(&self) -> Option<&(dyn Error + 'static)> {
        Some(&self.refusal)
    }
}
