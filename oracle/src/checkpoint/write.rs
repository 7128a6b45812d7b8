use crate::layout::read_state;
use crate::refusal::Refusal;
use crate::told::Told;

use super::format::{
    is_blank, is_lendable, COUNT_BYTES, ENTRY_BYTES, PAGE_BODY_BYTES, PAGE_BYTES, PAGE_KIND, STATE_KIND,
};

/// Writes the image of a state and a memory into the front of `image`.
pub fn write(state: &[u8], memory: &[u8], image: &mut [u8]) -> Told {
    if !is_lendable(memory) || read_state(state).is_none() {
        return Refusal::Malformed.into();
    }
    let pages = memory.chunks_exact(PAGE_BYTES).enumerate();
    let held: Vec<(usize, &[u8])> = pages.filter(|(_, page)| !is_blank(page)).collect();
    let count = 1 + held.len();
    let bodies_at = COUNT_BYTES + ENTRY_BYTES * count;
    let length = bodies_at + state.len() + PAGE_BODY_BYTES * held.len();
    let Some(image) = image.get_mut(..length) else {
        return Refusal::BadImage.into();
    };
    let mut writer = Writer { image, table_at: 0, bodies_at };
    writer.put_in_table(count as u32);
    writer.put(STATE_KIND, &[state]);
    for (number, page) in held {
        let address = (PAGE_BYTES * number) as u64;
        writer.put(PAGE_KIND, &[&address.to_le_bytes(), page]);
    }
    Told::written(length)
}

/// An image, and where its next entry and its next body go.
struct Writer<'i> {
    image: &'i mut [u8],
    table_at: usize,
    bodies_at: usize,
}

impl Writer<'_> {
    /// An entry and its body, which these parts are.
    fn put(&mut self, kind: u32, parts: &[&[u8]]) {
        let length: usize = parts.iter().map(|part| part.len()).sum();
        self.put_in_table(kind);
        self.put_in_table(self.bodies_at as u32);
        self.put_in_table(length as u32);
        for part in parts {
            self.image[self.bodies_at..][..part.len()].copy_from_slice(part);
            self.bodies_at += part.len();
        }
    }

    fn put_in_table(&mut self, number: u32) {
        self.image[self.table_at..][..4].copy_from_slice(&number.to_le_bytes());
        self.table_at += 4;
    }
}
