use std::ops::Range;

use crate::error::{Result, RuntimeError};

/// "Memory is one lent slice from address 0, little-endian."
pub struct Memory<'a> {
    bytes: &'a mut [u8],
}

impl<'a> Memory<'a> {
    #[inline]
    pub fn lent(bytes: &'a mut [u8]) -> Self {
        Self { bytes }
    }

    #[inline]
    pub fn read_u8(&self, address: u64) -> Result<u8> {
        self.read(address).map(u8::from_le_bytes)
    }

    #[inline]
    pub fn read_u16(&self, address: u64) -> Result<u16> {
        self.read(address).map(u16::from_le_bytes)
    }

    #[inline]
    pub fn read_u32(&self, address: u64) -> Result<u32> {
        self.read(address).map(u32::from_le_bytes)
    }

    #[inline]
    pub fn read_u64(&self, address: u64) -> Result<u64> {
        self.read(address).map(u64::from_le_bytes)
    }

    #[inline]
    pub fn write_u8(&mut self, address: u64, value: u8) -> Result<()> {
        self.write(address, value.to_le_bytes())
    }

    #[inline]
    pub fn write_u16(&mut self, address: u64, value: u16) -> Result<()> {
        self.write(address, value.to_le_bytes())
    }

    #[inline]
    pub fn write_u32(&mut self, address: u64, value: u32) -> Result<()> {
        self.write(address, value.to_le_bytes())
    }

    #[inline]
    pub fn write_u64(&mut self, address: u64, value: u64) -> Result<()> {
        self.write(address, value.to_le_bytes())
    }

    #[inline]
    fn read<const SIZE: usize>(&self, address: u64) -> Result<[u8; SIZE]> {
        let place = self.place::<SIZE>(address)?;
        Ok(self.bytes[place].try_into().expect("the part has this size"))
    }

    #[inline]
    fn write<const SIZE: usize>(&mut self, address: u64, value: [u8; SIZE]) -> Result<()> {
        let place = self.place::<SIZE>(address)?;
        self.bytes[place].copy_from_slice(&value);
        Ok(())
    }

    /// "then 1, or 3 and 2": first "address not a multiple of size" (3), then "address + size beyond memory, in whole
    /// numbers" (2): a sum that no 64 bits hold is beyond any memory. By document 02 it carries "the first byte that is
    /// missing: the address itself if it lies at or beyond the end, else the memory's length".
    #[inline]
    fn place<const SIZE: usize>(&self, address: u64) -> Result<Range<usize>> {
        if address % SIZE as u64 != 0 {
            return Err(RuntimeError::MisalignedAccess { address });
        }
        let length = self.bytes.len() as u64;
        match address.checked_add(SIZE as u64) {
            Some(end) if end <= length => Ok(address as usize..end as usize),
            _ if address >= length => Err(RuntimeError::OutOfBounds { address }),
            _ => Err(RuntimeError::OutOfBounds { address: length }),
        }
    }
}
