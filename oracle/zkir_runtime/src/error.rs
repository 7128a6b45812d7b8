/// What the published text and the memory can refuse: 1, 2 and 3 of document 01's table. The address out of bounds is that of
/// the first byte that is missing.
#[derive(Clone, Copy, Debug, PartialEq, Eq)]
pub enum RuntimeError {
    DivisionByZero { pc: u64 },
    OutOfBounds { address: u64 },
    MisalignedAccess { address: u64 },
}

pub type Result<T> = std::result::Result<T, RuntimeError>;
