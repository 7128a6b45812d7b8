//! What there is to ask about a word, as plain numbers.

use std::fmt;

use zkir_spec::encoding::*;
use zkir_spec::{decode, encode, Operands, Undecodable};

/// The fields of a word and its kind, by the published text, then its decoder's answer.
#[derive(Clone, Copy, Debug, PartialEq, Eq)]
pub struct Word {
    /// opcode, rd, rs1, rs2, funct, immediate, offset; rs1, rs2 and immediate of a store; the two signed readings
    /// modulo 2^64.
    pub fields: [u64; 12],
    /// Whether it is of kind R, I, S, B, J.
    pub kinds: [bool; 5],
    pub decoded: Decoded,
}

/// Refusal 4 or 5, or the instruction: opcode, registers in the order rd, rs1, rs2 as far as it has them, and immediate,
/// offset or shift amount modulo 2^64.
#[derive(Clone, Copy, Debug, PartialEq, Eq)]
pub enum Decoded {
    Refused(u64),
    Instruction { opcode: u64, registers: [u64; 3], imm: u64 },
}

pub fn taken_apart(word: u32) -> Word {
    let unsigned = [
        extract_opcode(word),
        extract_rd(word),
        extract_rs1(word),
        extract_rs2(word),
        extract_funct(word),
        extract_imm(word),
        extract_offset(word),
        extract_stype_rs1(word),
        extract_stype_rs2(word),
        extract_stype_imm(word),
    ];
    let mut fields = [0; 12];
    fields[..10].copy_from_slice(&unsigned.map(u64::from));
    fields[10] = extract_imm_signed(word) as u64;
    fields[11] = extract_offset_signed(word) as u64;
    let kinds = [is_rtype(word), is_itype(word), is_stype(word), is_btype(word), is_jtype(word)];
    Word { fields, kinds, decoded: decoded(word) }
}

fn decoded(word: u32) -> Decoded {
    let instruction = match decode(word) {
        Err(Undecodable::Opcode) => return Decoded::Refused(4),
        Err(Undecodable::Operands) => return Decoded::Refused(5),
        Ok(instruction) => instruction,
    };
    let (registers, imm) = match instruction.operands() {
        Operands::R { rd, rs1, rs2 } => ([rd.0, rs1.0, rs2.0], 0),
        Operands::I { rd, rs1, imm } => ([rd.0, rs1.0, 0], imm as u64),
        Operands::Shift { rd, rs1, shamt } => ([rd.0, rs1.0, 0], shamt),
        Operands::S { rs1, rs2, imm } => ([0, rs1.0, rs2.0], imm as u64),
        Operands::B { rs1, rs2, offset } => ([0, rs1.0, rs2.0], offset as u64),
        Operands::J { rd, offset } => ([rd.0, 0, 0], offset as u64),
        Operands::Alone => ([0; 3], 0),
    };
    Decoded::Instruction { opcode: instruction.opcode() as u64, registers: registers.map(u64::from), imm }
}

/// The parts of a word's instruction: its opcode, the registers at bits 7, 11 and 15, as far as it has them, and the
/// immediate. None where it has no instruction.
pub fn parts(word: u32) -> Option<(u8, [u8; 3], u64)> {
    let Decoded::Instruction { opcode, registers, imm } = decoded(word) else { return None };
    let [rd, rs1, rs2] = registers.map(|register| register as u8);
    let has_rd = !(is_stype(word) || is_btype(word));
    Some((opcode as u8, if has_rd { [rd, rs1, rs2] } else { [rs1, rs2, 0] }, imm))
}

/// What a subject answers of a word, in the order of `Word`, and whether its encoder gives the word back.
pub trait WordSubject: Sync {
    fn taken_apart(&self, word: u32) -> Word;
    fn gives_back(&self, word: u32) -> bool;
}

/// The oracle as its own subject.
pub struct OracleWords;

impl WordSubject for OracleWords {
    fn taken_apart(&self, word: u32) -> Word {
        taken_apart(word)
    }

    fn gives_back(&self, word: u32) -> bool {
        decode(word).is_ok_and(|instruction| encode(&instruction) == Ok(word))
    }
}

/// Whether subject and oracle agree on a word and on the word of its instruction.
pub fn agrees(word: u32, subject: &dyn WordSubject) -> bool {
    let right = taken_apart(word);
    let encoded = match right.decoded {
        Decoded::Refused(_) => true,
        Decoded::Instruction { .. } => subject.gives_back(word),
    };
    encoded && subject.taken_apart(word) == right
}

/// The word with as few bits as it can do without and still be differed on.
pub fn shrunk(word: u32, subject: &dyn WordSubject) -> WordDifference {
    let mut smallest = word;
    while let Some(fewer) = (0..32).map(|bit| smallest & !(1 << bit)).find(|&w| w != smallest && !agrees(w, subject)) {
        smallest = fewer;
    }
    let gives_back = subject.gives_back(smallest);
    WordDifference { word: smallest, oracle: taken_apart(smallest), subject: subject.taken_apart(smallest), gives_back }
}

/// The archive where its functions are linked, else the oracle itself.
pub fn subject() -> (&'static str, Box<dyn WordSubject>) {
    #[cfg(exports)]
    return ("the archive", Box::new(crate::exported::ArchiveWords::new()));
    #[cfg(not(exports))]
    return ("the oracle itself (no ZKIR_EXPORTS at build time)", Box::new(OracleWords));
}

pub struct WordDifference {
    pub word: u32,
    pub oracle: Word,
    pub subject: Word,
    pub gives_back: bool,
}

impl fmt::Display for WordDifference {
    fn fmt(&self, f: &mut fmt::Formatter) -> fmt::Result {
        writeln!(f, "the smallest word on which they differ, in hex: {:08x}", self.word)?;
        writeln!(f, "  oracle {:x?}\n  subject {:x?}", self.oracle, self.subject)?;
        write!(f, "  the subject's encoder gives the word back: {}", self.gives_back)
    }
}

/// Whether the word keeps the oracle's own laws: it is of one kind at most, of one exactly where its opcode is valid, and
/// it is the word of its instruction.
pub fn keeps_laws(word: u32) -> bool {
    let Word { fields, kinds, decoded } = taken_apart(word);
    let valid = (1..=50).contains(&fields[0]);
    let one_kind = kinds.iter().filter(|&&kind| kind).count() == valid as usize;
    let round = match decode(word) {
        Ok(instruction) => encode(&instruction) == Ok(word),
        Err(_) => true,
    };
    one_kind && round && (decoded == Decoded::Refused(4)) != valid
}
