//! Document 01, "Stops and refusals", and what document 02 adds to it.

use zkir_runtime::error::RuntimeError;

/// A refusal with what its particular is taken from.
#[derive(Clone, Copy, Debug, PartialEq, Eq)]
pub enum Refusal {
    DivisorZero { pc: u64 },
    Beyond { missing: u64 },
    Misaligned { address: u64 },
    Opcode { word: u32 },
    Operands { word: u32 },
    PcMisaligned { pc: u64 },
    PcBeyond { pc: u64 },
    ListFull { pc: u64 },
    Malformed,
    BadLine { line: u64 },
    BadImage,
}

impl Refusal {
    pub fn number(self) -> u64 {
        match self {
            Refusal::DivisorZero { .. } => 1,
            Refusal::Beyond { .. } => 2,
            Refusal::Misaligned { .. } => 3,
            Refusal::Opcode { .. } => 4,
            Refusal::Operands { .. } => 5,
            Refusal::PcMisaligned { .. } => 6,
            Refusal::PcBeyond { .. } => 7,
            Refusal::ListFull { .. } => 8,
            Refusal::Malformed => 9,
            Refusal::BadLine { .. } => 10,
            Refusal::BadImage => 11,
        }
    }

    pub fn particular(self) -> u64 {
        match self {
            Refusal::DivisorZero { pc }
            | Refusal::PcMisaligned { pc }
            | Refusal::PcBeyond { pc }
            | Refusal::ListFull { pc } => pc,
            Refusal::Beyond { missing } => missing,
            Refusal::Misaligned { address } => address,
            Refusal::Opcode { word } | Refusal::Operands { word } => word as u64,
            Refusal::Malformed | Refusal::BadImage => 0,
            Refusal::BadLine { line } => line,
        }
    }
}

impl From<RuntimeError> for Refusal {
    fn from(error: RuntimeError) -> Self {
        match error {
            RuntimeError::DivisionByZero { pc } => Refusal::DivisorZero { pc },
            RuntimeError::OutOfBounds { address } => Refusal::Beyond { missing: address },
            RuntimeError::MisalignedAccess { address } => Refusal::Misaligned { address },
        }
    }
}

/// "A run stops on fuel, Ebreak, Ecall or a refusal."
#[derive(Clone, Copy, Debug, PartialEq, Eq)]
pub enum Stop {
    Fuel,
    Ebreak,
    Ecall,
    Refused(Refusal),
}

impl Stop {
    /// "code 0 fuel, 1 to 9 refusals, 64 Ebreak, 65 Ecall".
    pub fn code(self) -> u64 {
        match self {
            Stop::Fuel => 0,
            Stop::Ebreak => 64,
            Stop::Ecall => 65,
            Stop::Refused(refusal) => refusal.number(),
        }
    }

    /// "particular 0 at stops".
    pub fn particular(self) -> u64 {
        match self {
            Stop::Refused(refusal) => refusal.particular(),
            _ => 0,
        }
    }
}
