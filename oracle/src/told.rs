use crate::refusal::Refusal;

/// What a call answers: code 0 and the bytes written, or a refusal's number and its particular.
#[repr(C)]
#[derive(Clone, Copy, Debug, PartialEq, Eq)]
pub struct Told {
    pub code: u64,
    pub particular: u64,
    pub length: u64,
}

impl Told {
    pub fn written(length: usize) -> Self {
        Self { code: 0, particular: 0, length: length as u64 }
    }
}

impl From<Refusal> for Told {
    fn from(refusal: Refusal) -> Self {
        Self { code: refusal.number(), particular: refusal.particular(), length: 0 }
    }
}
