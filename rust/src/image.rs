//! The bytes of an image, and what is wrong with those that are none: they are looked through until the first rule that
//! they break. Which bytes are an image the archive decides.

use crate::damage::Damage;
use crate::layout::{number, STATE_BYTES};
use crate::state::State;

/// Memory is held by pages of so many bytes.
///
/// ```
/// assert_eq!(yokeglimmer::PAGE_BYTES, 4_096);
/// ```
pub const PAGE_BYTES: usize = 4096;

/// A checkpoint's memory has at most so many bytes, which are sixteen pages.
///
/// ```
/// assert_eq!(yokeglimmer::MOST_MEMORY_BYTES, 16 * yokeglimmer::PAGE_BYTES);
/// ```
pub const MOST_MEMORY_BYTES: usize = 65_536;

/// An image has at most so many bytes: it has 416, and 4,116 for each page that it holds.
///
/// ```
/// assert_eq!(yokeglimmer::MOST_IMAGE_BYTES, 416 + 16 * 4116);
/// ```
pub const MOST_IMAGE_BYTES: usize = LEAST_BYTES + MOST_MEMORY_BYTES / PAGE_BYTES * (ENTRY_BYTES + BODY_BYTES);

/// The table: the count of its entries (4), then of each its kind, offset and length (4 each).
const COUNT_BYTES: usize = 4;
const ENTRY_BYTES: usize = 12;
const KIND: usize = 0;
const OFFSET: usize = 4;
const LENGTH: usize = 8;

/// The body of a page: its address (8), then its bytes.
const ADDRESS_BYTES: usize = 8;
const BODY_BYTES: usize = ADDRESS_BYTES + PAGE_BYTES;

/// An image that holds no page.
const LEAST_BYTES: usize = COUNT_BYTES + ENTRY_BYTES + STATE_BYTES;

/// The kinds.
const STATE: u64 = 1;
const PAGE: u64 = 2;

/// What is wrong, and its place in the image, in bytes from 0.
pub(crate) struct Wrong {
    pub at: usize,
    pub damage: Damage,
}

/// Of an image that is to be read into memory of that length; nothing where it is right.
pub(crate) fn what_is_wrong(image: &[u8], memory_length: usize) -> Option<Wrong> {
    check(image, memory_length).err()
}

fn wrong<T>(at: usize, damage: Damage) -> Result<T, Wrong> {
    Err(Wrong { at, damage })
}

fn check(image: &[u8], memory_length: usize) -> Result<(), Wrong> {
    let count = check_count(image)?;
    let end = check_entries(image, count)?;
    check_end(image, end)?;
    let state = table_bytes(count) as usize;
    check_state(image, state)?;
    check_pages(image, state + STATE_BYTES, memory_length as u64)
}

/// The count, where the image has a table of that many entries.
fn check_count(image: &[u8]) -> Result<u64, Wrong> {
    if image.len() < COUNT_BYTES {
        return wrong(image.len(), Damage::NoCount);
    }
    let count = field(image, 0);
    if let Some(due) = count_by_the_rest(image).filter(|&due| due != count) {
        return wrong(0, Damage::Count { count, due });
    }
    if count == 0 {
        return wrong(0, Damage::NoEntry);
    }
    let table = table_bytes(count);
    if (image.len() as u64) < table {
        return wrong(image.len(), Damage::TableCut { count, table });
    }
    Ok(count)
}

/// How many entries there are by the image's length, where the first entry's offset says the same. So a count that alone
/// is damaged is told from an offset that is, and from bytes that are missing.
fn count_by_the_rest(image: &[u8]) -> Option<u64> {
    let pages = image.len().checked_sub(LEAST_BYTES)?;
    let count = 1 + (pages / (ENTRY_BYTES + BODY_BYTES)) as u64;
    let is_whole = pages % (ENTRY_BYTES + BODY_BYTES) == 0;
    Some(count).filter(|&count| is_whole && field(image, COUNT_BYTES + OFFSET) == table_bytes(count))
}

/// Where the last body ends, by a table whose entries are right.
fn check_entries(image: &[u8], count: u64) -> Result<u64, Wrong> {
    let mut end = table_bytes(count);
    for entry in 1..=count {
        let (kind, length) = if entry == 1 { (STATE, STATE_BYTES as u64) } else { (PAGE, BODY_BYTES as u64) };
        check_entry(image, entry, [kind, end, length])?;
        end += length;
    }
    Ok(end)
}

/// That the kind, the offset and the length of an entry are those due.
fn check_entry(image: &[u8], entry: u64, due: [u64; 3]) -> Result<(), Wrong> {
    let at = table_bytes(entry - 1) as usize;
    let [kind, offset, length] = [KIND, OFFSET, LENGTH].map(|place| field(image, at + place));
    if kind != due[0] {
        return wrong(at + KIND, Damage::Kind { entry, kind, due: due[0] });
    }
    if offset != due[1] {
        return wrong(at + OFFSET, Damage::Offset { entry, offset, due: due[1] });
    }
    if length != due[2] {
        return wrong(at + LENGTH, Damage::Length { entry, length, due: due[2] });
    }
    Ok(())
}

fn check_end(image: &[u8], due: u64) -> Result<(), Wrong> {
    let length = image.len() as u64;
    if length < due {
        return wrong(image.len(), Damage::Missing { length, due });
    }
    if length > due {
        return wrong(due as usize, Damage::Surplus { length, due });
    }
    Ok(())
}

fn check_state(image: &[u8], at: usize) -> Result<(), Wrong> {
    match State::try_from(&image[at..at + STATE_BYTES]) {
        Ok(_) => Ok(()),
        Err(malformed) => wrong(at + malformed.at, Damage::State(malformed.rule)),
    }
}

/// The pages' bodies from that place to the image's end.
fn check_pages(image: &[u8], mut at: usize, memory_length: u64) -> Result<(), Wrong> {
    let mut held = Vec::new();
    for body in image[at..].chunks_exact(BODY_BYTES) {
        let address = number(body, 0);
        check_address(address, &held, memory_length).or_else(|damage| wrong(at, damage))?;
        if body[ADDRESS_BYTES..].iter().all(|&byte| byte == 0) {
            return wrong(at + ADDRESS_BYTES, Damage::Zeros { address });
        }
        held.push(address);
        at += BODY_BYTES;
    }
    Ok(())
}

/// That a page may follow those that are held, by rising address.
fn check_address(address: u64, held: &[u64], length: u64) -> Result<(), Damage> {
    if address % PAGE_BYTES as u64 != 0 {
        return Err(Damage::Misplaced { address });
    }
    if address >= length {
        return Err(Damage::Beyond { address, length });
    }
    match held.last() {
        Some(_) if held.contains(&address) => Err(Damage::Twice { address }),
        Some(&larger) if address < larger => Err(Damage::Behind { address, larger }),
        _ => Ok(()),
    }
}

/// Where the table ends, and the state begins.
fn table_bytes(count: u64) -> u64 {
    COUNT_BYTES as u64 + count * ENTRY_BYTES as u64
}

/// The four bytes of a number in the table.
fn field(image: &[u8], at: usize) -> u64 {
    u32::from_le_bytes(std::array::from_fn(|i| image[at + i])).into()
}
