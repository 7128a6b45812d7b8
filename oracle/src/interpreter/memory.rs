//! "Memory is one lent slice from address 0, little-endian."

use crate::refusal::Refusal;

/// Where the bytes lie. First "address not a multiple of size" (3), then "address + size beyond memory" (2), which names the
/// first byte that is missing.
#[inline]
fn place<const SIZE: usize>(memory: &[u8], address: u64) -> Result<usize, Refusal> {
    if address % SIZE as u64 != 0 {
        return Err(Refusal::Misaligned { address });
    }
    match memory.len().checked_sub(SIZE) {
        Some(last) if address <= last as u64 => Ok(address as usize),
        _ => Err(Refusal::Beyond { missing: address.max(memory.len() as u64) }),
    }
}

#[inline]
pub fn load<const SIZE: usize>(memory: &[u8], address: u64) -> Result<[u8; SIZE], Refusal> {
    let at = place::<SIZE>(memory, address)?;
    Ok(memory[at..at + SIZE].try_into().expect("the part has this size"))
}

#[inline]
pub fn store<const SIZE: usize>(memory: &mut [u8], address: u64, bytes: [u8; SIZE]) -> Result<(), Refusal> {
    let at = place::<SIZE>(memory, address)?;
    memory[at..at + SIZE].copy_from_slice(&bytes);
    Ok(())
}

/// "pc not a multiple of 4" (6), then "pc + 4 beyond memory, in whole numbers" (7).
#[inline]
pub fn fetch(memory: &[u8], pc: u64) -> Result<u32, Refusal> {
    match load(memory, pc) {
        Ok(bytes) => Ok(u32::from_le_bytes(bytes)),
        Err(Refusal::Misaligned { .. }) => Err(Refusal::PcMisaligned { pc }),
        Err(_) => Err(Refusal::PcBeyond { pc }),
    }
}
