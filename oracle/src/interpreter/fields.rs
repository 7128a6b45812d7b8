//! Where the parts of a word lie. "Opcode bits 0-6. R: rd 7-10, rs1 11-14, rs2 15-18, funct 19-31. I: rd, rs1, immediate
//! 15-31. S and B: rs1 at 7-10, rs2 at 11-14, immediate 15-31. J: rd, offset 11-31."

/// The register number at a bit.
#[inline]
fn register(word: u32, bit: u32) -> usize {
    (word >> bit & 15) as usize
}

#[inline]
pub fn first(word: u32) -> usize {
    register(word, 7)
}

#[inline]
pub fn second(word: u32) -> usize {
    register(word, 11)
}

#[inline]
pub fn third(word: u32) -> usize {
    register(word, 15)
}

/// "A 17-bit immediate with bit 16 set subtracts 2^17": the word's top 17 bits, the sign shifted in; as 64 bits.
#[inline]
pub fn immediate(word: u32) -> u64 {
    (word as i32 >> 15) as i64 as u64
}

/// "a 21-bit offset with bit 20 set subtracts 2^21".
#[inline]
pub fn offset(word: u32) -> u64 {
    (word as i32 >> 11) as i64 as u64
}

#[inline]
pub fn has_funct(word: u32) -> bool {
    word >> 19 != 0
}

/// The immediate of a shift, unsigned.
#[inline]
pub fn shift_amount(word: u32) -> u32 {
    word >> 15
}

#[inline]
pub fn has_operands(word: u32) -> bool {
    word >> 7 != 0
}
