use crate::layout::{number, read_state, STATE_BYTES};
use crate::refusal::Refusal;
use crate::told::Told;

use super::format::{
    is_blank, is_lendable, ADDRESS_BYTES, COUNT_BYTES, ENTRY_BYTES, PAGE_BODY_BYTES, PAGE_BYTES, PAGE_KIND, STATE_KIND,
};

/// Makes state and memory those of the image.
pub fn read(image: &[u8], state: &mut [u8], memory: &mut [u8]) -> Told {
    if !is_lendable(memory) || state.len() != STATE_BYTES {
        return Refusal::Malformed.into();
    }
    match Contents::of(image, memory.len()) {
        Err(_) => Refusal::BadImage.into(),
        Ok(contents) => {
            contents.restore(state, memory);
            Told::written(0)
        }
    }
}

/// A rule that an image breaks, the first that is met.
#[derive(Clone, Copy, Debug, PartialEq, Eq)]
pub enum Broken {
    /// There is no table of so many entries, or it has none.
    Count,
    Kind,
    Offset,
    /// Another length than the kind's, or a body that is cut off.
    Length,
    /// There are bytes behind the last body.
    Behind,
    /// A malformed state.
    State,
    /// An address at no multiple of a page.
    Multiple,
    /// A page that is not above the one before it.
    Order,
    /// A page beyond the lent memory.
    Beyond,
    /// A page of zeros.
    Zero,
}

impl Broken {
    pub const ALL: [Broken; 10] = {
        use Broken::*;
        [Count, Kind, Offset, Length, Behind, State, Multiple, Order, Beyond, Zero]
    };
}

/// What an image holds.
pub struct Contents<'i> {
    pub state: &'i [u8],
    pub pages: Vec<Page<'i>>,
}

pub struct Page<'i> {
    pub address: usize,
    pub bytes: &'i [u8],
}

impl<'i> Contents<'i> {
    /// Of an image that keeps every rule, for memory of this length.
    pub fn of(image: &'i [u8], memory_length: usize) -> Result<Self, Broken> {
        let table = table(image).ok_or(Broken::Count)?;
        let mut entries = table.chunks_exact(ENTRY_BYTES).map(Entry::of);
        let mut bodies = Bodies { image, place: COUNT_BYTES + table.len() };
        let first = entries.next().ok_or(Broken::Count)?;
        let state = bodies.next(first, STATE_KIND, STATE_BYTES)?;
        read_state(state).ok_or(Broken::State)?;
        let mut pages = Vec::with_capacity(entries.len());
        let mut least = 0;
        for entry in entries {
            let page = Page::of(bodies.next(entry, PAGE_KIND, PAGE_BODY_BYTES)?, least, memory_length)?;
            least = page.address + PAGE_BYTES;
            pages.push(page);
        }
        if bodies.place != image.len() {
            return Err(Broken::Behind);
        }
        Ok(Self { state, pages })
    }

    fn restore(&self, state: &mut [u8], memory: &mut [u8]) {
        state.copy_from_slice(self.state);
        let mut behind = 0;
        for &Page { address, bytes } in &self.pages {
            memory[behind..address].fill(0);
            behind = address + PAGE_BYTES;
            memory[address..behind].copy_from_slice(bytes);
        }
        memory[behind..].fill(0);
    }
}

/// The entries' bytes, as many as the count says.
fn table(image: &[u8]) -> Option<&[u8]> {
    let (count, rest) = image.split_first_chunk::<COUNT_BYTES>()?;
    rest.get(..ENTRY_BYTES * u32::from_le_bytes(*count) as usize)
}

struct Entry {
    kind: u32,
    offset: usize,
    length: usize,
}

impl Entry {
    fn of(bytes: &[u8]) -> Self {
        let number = |at: usize| u32::from_le_bytes(bytes[at..at + 4].try_into().expect("four bytes"));
        Self { kind: number(0), offset: number(4) as usize, length: number(8) as usize }
    }
}

/// The bodies of an image, from the place on where the next one has to begin.
struct Bodies<'i> {
    image: &'i [u8],
    place: usize,
}

impl<'i> Bodies<'i> {
    /// The body of the next entry, which must be of this kind and length.
    fn next(&mut self, entry: Entry, kind: u32, length: usize) -> Result<&'i [u8], Broken> {
        if entry.kind != kind {
            return Err(Broken::Kind);
        }
        if entry.offset != self.place {
            return Err(Broken::Offset);
        }
        if entry.length != length {
            return Err(Broken::Length);
        }
        let body = self.image[self.place..].get(..length).ok_or(Broken::Length)?;
        self.place += length;
        Ok(body)
    }
}

impl<'i> Page<'i> {
    /// The page of a body, at this address or above.
    fn of(body: &'i [u8], least: usize, memory_length: usize) -> Result<Self, Broken> {
        let (address, bytes) = (number(body, 0), &body[ADDRESS_BYTES..]);
        if address & (PAGE_BYTES as u64 - 1) != 0 {
            return Err(Broken::Multiple);
        }
        if address < least as u64 {
            return Err(Broken::Order);
        }
        if address >= memory_length as u64 {
            return Err(Broken::Beyond);
        }
        if is_blank(bytes) {
            return Err(Broken::Zero);
        }
        Ok(Self { address: address as usize, bytes })
    }
}
