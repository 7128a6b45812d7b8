use crate::checkpoint::{
    is_zero, ADDRESS_BYTES, COUNT_BYTES, ENTRY_BYTES, PAGE_BODY_BYTES, PAGE_BYTES, PAGE_KIND, STATE_KIND,
};
use crate::layout::{number, put_number, STATE_BYTES};

use super::machine::Machine;

/// An image in parts, each of which can be wrong by itself. What is wrong of a count or an offset is kept as the difference
/// from what is right, modulo 2^32, so that it stays where other parts go.
#[derive(Clone, Debug, PartialEq, Eq)]
pub struct Parts {
    pub count_error: u32,
    pub entries: Vec<Entry>,
    pub behind: Vec<u8>,
}

/// An entry of the table with its body, which may have another length than the entry says.
#[derive(Clone, Debug, PartialEq, Eq)]
pub struct Entry {
    pub kind: u32,
    pub offset_error: u32,
    pub length: u32,
    pub body: Vec<u8>,
}

impl Entry {
    pub fn of(kind: u32, body: Vec<u8>) -> Self {
        Self { kind, offset_error: 0, length: body.len() as u32, body }
    }

    pub fn state(bytes: &[u8]) -> Self {
        Self::of(STATE_KIND, bytes.to_vec())
    }

    pub fn page(address: u64, bytes: &[u8]) -> Self {
        Self::of(PAGE_KIND, [&address.to_le_bytes(), bytes].concat())
    }

    /// A page's address; of a body without one none.
    pub fn address(&self) -> Option<u64> {
        (self.kind == PAGE_KIND && self.body.len() >= ADDRESS_BYTES).then(|| number(&self.body, 0))
    }

    /// Sets the address, where the body has one.
    pub fn set_address(&mut self, address: u64) {
        if self.address().is_some() {
            put_number(&mut self.body, 0, address);
        }
    }
}

/// The bytes of an image with so many pages.
pub fn image_bytes(pages: usize) -> usize {
    bodies_at(pages + 1) + STATE_BYTES + PAGE_BODY_BYTES * pages
}

/// Where the bodies of so many entries begin.
fn bodies_at(entries: usize) -> usize {
    COUNT_BYTES + ENTRY_BYTES * entries
}

/// The 4-byte number at this place of an image's table, the count being the first.
pub fn number_of_table(image: &[u8], place: usize) -> Option<u32> {
    let bytes = image.get(4 * place..4 * place + 4)?;
    Some(u32::from_le_bytes(bytes.try_into().expect("four bytes")))
}

impl Parts {
    pub fn from_entries(entries: Vec<Entry>) -> Self {
        Self { count_error: 0, entries, behind: Vec::new() }
    }

    pub fn of(machine: &Machine) -> Self {
        let pages = machine.memory.chunks_exact(PAGE_BYTES).zip(0..);
        let held = pages.filter(|(page, _)| !is_zero(page));
        let bodies = held.map(|(page, number)| Entry::page(PAGE_BYTES as u64 * number, page));
        Self::from_entries([Entry::state(&machine.state)].into_iter().chain(bodies).collect())
    }

    /// The parts of an image, with as many pages as its bytes suffice for, whatever they are; of fewer bytes than any image has
    /// none.
    pub fn split(image: &[u8]) -> Option<Self> {
        let pages = image.len().checked_sub(image_bytes(0))? / (image_bytes(1) - image_bytes(0));
        let first_page = bodies_at(pages + 1) + STATE_BYTES;
        let behind_each = (0..=pages).map(|page| first_page + PAGE_BODY_BYTES * page);
        Self::cut(image, &[bodies_at(pages + 1)].into_iter().chain(behind_each).collect::<Vec<_>>())
    }

    /// The parts of an image whose table stands before them, each body up to where the next entry says that the next one is.
    pub fn split_by_offsets(image: &[u8]) -> Option<Self> {
        let count = number_of_table(image, 0)? as usize;
        let offsets = (0..count).map(|entry| number_of_table(image, 2 + 3 * entry).map(|offset| offset as usize));
        let bounds: Vec<usize> = offsets.chain([Some(image.len())]).collect::<Option<_>>()?;
        Self::cut(image, &bounds).filter(|_| bounds[0] == bodies_at(count))
    }

    /// The parts of an image with a body from each of these places to the next.
    fn cut(image: &[u8], bounds: &[usize]) -> Option<Self> {
        let entry = |(number, bounds): (usize, &[usize])| {
            let [kind, offset, length] = [1, 2, 3].map(|place| number_of_table(image, place + 3 * number));
            let body = image.get(bounds[0]..bounds[1])?.to_vec();
            Some(Entry { kind: kind?, offset_error: offset?.wrapping_sub(bounds[0] as u32), length: length?, body })
        };
        let entries: Vec<Entry> = bounds.windows(2).enumerate().map(entry).collect::<Option<_>>()?;
        let count_error = number_of_table(image, 0)?.wrapping_sub(entries.len() as u32);
        Some(Self { count_error, entries, behind: image.get(*bounds.last()?..)?.to_vec() })
    }

    pub fn image(&self) -> Vec<u8> {
        let count = (self.entries.len() as u32).wrapping_add(self.count_error);
        let mut image = count.to_le_bytes().to_vec();
        let mut place = bodies_at(self.entries.len());
        for Entry { kind, offset_error, length, body } in &self.entries {
            let offset = (place as u32).wrapping_add(*offset_error);
            image.extend([*kind, offset, *length].iter().flat_map(|number| number.to_le_bytes()));
            place += body.len();
        }
        image.extend(self.entries.iter().flat_map(|entry| &entry.body));
        image.extend(&self.behind);
        image
    }

    /// Makes each offset what it were if the bodies had the lengths that the entries say.
    pub fn trust_lengths(&mut self) {
        let mut error = 0u32;
        for entry in &mut self.entries {
            entry.offset_error = error;
            error = error.wrapping_add(entry.length).wrapping_sub(entry.body.len() as u32);
        }
    }
}
