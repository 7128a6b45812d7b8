//! What can be wrong with a line of a text.

use std::fmt;

/// What is wrong with a line, in the order of the mistakes' numbers. Later versions may have more.
///
/// ```
/// use yokeglimmer::{assemble, Mistake};
///
/// let bad = assemble("Slli R1, R1, 64").unwrap_err();
/// assert_eq!(bad.mistake, Mistake::LargeAmount { value: 64 });
/// assert_eq!(bad.mistake.to_string(), "the value must be 0 to 63");
/// ```
#[derive(Clone, Copy, Debug, PartialEq, Eq, Hash)]
#[non_exhaustive]
#[allow(missing_docs)] // of the fields: the byte, and the values that do not fit
pub enum Mistake {
    /// A byte that no line has: a tab, a remark's mark, a letter with an accent.
    ForeignByte { byte: u8 },
    /// The line begins with something else than a letter.
    NoName,
    /// Something stands behind a label's colon.
    NotAlone,
    /// The label's second definition, or a further one.
    DefinedAgain,
    /// The name is no instruction's.
    NoInstruction,
    /// The line ends where an operand is due.
    NoOperand,
    /// Something else stands where a register is due.
    NoRegister,
    /// Something else stands where a comma is due.
    NoComma,
    /// Something else stands where a number, a label or a sum in parentheses is due.
    NoTerm,
    /// A sign that no digit follows: only numbers have signs.
    LoneSign,
    /// A number that does not fit 64 signed bits.
    LargeNumber,
    /// A label that no line defines.
    UnknownLabel,
    /// A parenthesis within sixteen others.
    TooDeep,
    /// Something else stands where a parenthesis is to be closed.
    NotClosed,
    /// A sum that does not fit 64 signed bits, up to a term.
    LargeSum,
    /// Something stands behind all that the line needs.
    TooMuch,
    /// An immediate, or a branch's offset, that does not fit 17 signed bits.
    LargeImmediate { value: i64 },
    /// An offset of Jal that does not fit 21 signed bits.
    LargeOffset { value: i64 },
    /// A shift amount that is not 0 to 63.
    LargeAmount { value: i64 },
}

impl Mistake {
    /// 1 to 19.
    ///
    /// ```
    /// assert_eq!(yokeglimmer::Mistake::UnknownLabel.number(), 12);
    /// ```
    pub fn number(self) -> u64 {
        match self {
            Mistake::ForeignByte { .. } => 1,
            Mistake::NoName => 2,
            Mistake::NotAlone => 3,
            Mistake::DefinedAgain => 4,
            Mistake::NoInstruction => 5,
            Mistake::NoOperand => 6,
            Mistake::NoRegister => 7,
            Mistake::NoComma => 8,
            Mistake::NoTerm => 9,
            Mistake::LoneSign => 10,
            Mistake::LargeNumber => 11,
            Mistake::UnknownLabel => 12,
            Mistake::TooDeep => 13,
            Mistake::NotClosed => 14,
            Mistake::LargeSum => 15,
            Mistake::TooMuch => 16,
            Mistake::LargeImmediate { .. } => 17,
            Mistake::LargeOffset { .. } => 18,
            Mistake::LargeAmount { .. } => 19,
        }
    }
}

// The words are those of docs/mistakes.txt.
impl fmt::Display for Mistake {
    fn fmt(&self, f: &mut fmt::Formatter<'_>) -> fmt::Result {
        f.write_str(match self {
            Mistake::ForeignByte { .. } => "only letters, digits, spaces and + - ( ) , : may be written",
            Mistake::NoName => "a line begins with a label or the name of an instruction",
            Mistake::NotAlone => "a label stands alone on its line",
            Mistake::DefinedAgain => "an earlier line defines this label",
            Mistake::NoInstruction => "there is no instruction of this name",
            Mistake::NoOperand => "an operand is missing",
            Mistake::NoRegister => "a register is expected, R0 to R15",
            Mistake::NoComma => "a comma is expected",
            Mistake::NoTerm => "a number, a label or an opening parenthesis is expected",
            Mistake::LoneSign => "digits are expected right after the sign",
            Mistake::LargeNumber => "the number does not fit 64 signed bits",
            Mistake::UnknownLabel => "no line defines this label",
            Mistake::TooDeep => "parentheses nest at most sixteen deep",
            Mistake::NotClosed => "a closing parenthesis is expected",
            Mistake::LargeSum => "the sum so far does not fit 64 signed bits",
            Mistake::TooMuch => "the line should end here",
            Mistake::LargeImmediate { .. } => "the value must be -65536 to 65535",
            Mistake::LargeOffset { .. } => "the value must be -1048576 to 1048575",
            Mistake::LargeAmount { .. } => "the value must be 0 to 63",
        })
    }
}
