//! What a call over texts or images answers, as a record of numbers.

/// What [`raw::assemble`](crate::raw::assemble), [`raw::print`](crate::raw::print),
/// [`raw::checkpoint_write`](crate::raw::checkpoint_write) and [`raw::checkpoint_read`](crate::raw::checkpoint_read)
/// answer.
///
/// ```
/// use yokeglimmer::raw;
///
/// let told = raw::assemble(b"Ebreak", &mut [0; 3], &mut []);
/// assert_eq!(told, raw::Told { code: 9, particular: 0, length: 0 }); // a word has four bytes
/// ```
#[repr(C)]
#[derive(Clone, Copy, Debug, PartialEq, Eq, Hash)]
#[must_use]
pub struct Told {
    /// 0 where it is done, else the refusal's number.
    pub code: u64,
    /// The line or the word that a refusal names, else 0.
    pub particular: u64,
    /// The bytes written of words, of a text or of an image; 0 where it is refused, and of a read image.
    pub length: u64,
}
