/// A register's number. A number of 16 or more names no register; the encoder refuses it.
#[derive(Clone, Copy, Debug, PartialEq, Eq)]
pub struct Register(pub u8);

impl Register {
    pub const R0: Register = Register(0);

    pub const fn exists(self) -> bool {
        self.0 < 16
    }

    /// Its place among sixteen. Cut to four bits, so that no place is tested again: a register that does not exist is
    /// refused before anything is asked of it.
    #[inline]
    pub const fn index(self) -> usize {
        debug_assert!(self.exists());
        self.0 as usize % 16
    }
}
