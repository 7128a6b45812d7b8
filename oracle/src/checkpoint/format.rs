//! The numbers of the format, and what writer and reader both ask.

pub const PAGE_BYTES: usize = 4096;
pub const MOST_MEMORY: usize = 65_536;

pub const COUNT_BYTES: usize = 4;
/// Kind, offset in the image and length.
pub const ENTRY_BYTES: usize = 12;
pub const STATE_KIND: u32 = 1;
pub const PAGE_KIND: u32 = 2;
pub const ADDRESS_BYTES: usize = 8;
pub const PAGE_BODY_BYTES: usize = ADDRESS_BYTES + PAGE_BYTES;

/// Whether a memory of this length may be lent.
pub fn is_lendable(memory: &[u8]) -> bool {
    memory.len() <= MOST_MEMORY && memory.chunks_exact(PAGE_BYTES).remainder().is_empty()
}

/// Of a whole page: compared with one of zeros, for which Rust calls C's memcmp, and so faster than byte by byte.
pub fn is_blank(page: &[u8]) -> bool {
    page == [0; PAGE_BYTES]
}

pub fn is_zero(bytes: &[u8]) -> bool {
    bytes.iter().all(|&byte| byte == 0)
}
