//! Makes a call that shows a difference as small as it gets: with fewer pages and bytes lent, then with zeros for all that can
//! be zero.

use crate::checkpoint::{is_zero, PAGE_BYTES};

use super::call::{needed, Call, Lent, What};
use super::parts::Parts;

pub fn shrink(call: Call, differs: &dyn Fn(&Call) -> bool) -> Call {
    let mut shrinking = Shrinking { smallest: call, differs };
    loop {
        let before = size(&shrinking.smallest);
        shrinking.fewer_pages();
        shrinking.fewer_entries();
        for part in PARTS {
            shrinking.shorter(part);
            shrinking.more_zeros(part);
        }
        if size(&shrinking.smallest) == before {
            return shrinking.smallest;
        }
    }
}

/// Something that is lent.
type Part = fn(&mut Lent) -> &mut Vec<u8>;

const PARTS: [Part; 3] = [|lent| &mut lent.memory, |lent| &mut lent.image, |lent| &mut lent.state];

/// Calls are compared by this, the first number first; every reduction that is taken lowers it, so shrinking ends.
fn size(call: &Call) -> (usize, usize) {
    let Lent { state, memory, image } = &call.lent;
    let nonzero = |bytes: &[u8]| bytes.iter().filter(|&&byte| byte != 0).count();
    (state.len() + memory.len() + image.len(), nonzero(state) + nonzero(memory) + nonzero(image))
}

struct Shrinking<'d> {
    smallest: Call,
    differs: &'d dyn Fn(&Call) -> bool,
}

impl Shrinking<'_> {
    /// Whether this is smaller and they differ on it.
    fn takes(&mut self, lent: Lent) -> bool {
        let call = Call { what: self.smallest.what, lent };
        let still = size(&call) < size(&self.smallest) && (self.differs)(&call);
        if still {
            self.smallest = call;
        }
        still
    }

    fn with(&self, change: impl FnOnce(&mut Lent)) -> Lent {
        let mut lent = self.smallest.lent.clone();
        change(&mut lent);
        lent
    }

    /// Each page taken out of the memory, with its part of the image or of the room for it.
    fn fewer_pages(&mut self) {
        for page in (0..self.smallest.lent.memory.len() / PAGE_BYTES).rev() {
            let at = PAGE_BYTES * page;
            let Lent { memory, image, .. } = self.smallest.lent.clone();
            let lent = self.with(|lent| drop(lent.memory.drain(at..at + PAGE_BYTES)));
            let images = match self.smallest.what {
                What::Write => {
                    let room = (image.len() + needed(&lent.memory)).saturating_sub(needed(&memory));
                    vec![vec![0xa5; room]]
                }
                What::Read => splits(&image).map(|parts| without_page(parts, at as u64).image()).collect(),
            };
            for image in [image].into_iter().chain(images) {
                self.takes(Lent { image, ..lent.clone() });
            }
        }
    }

    fn fewer_entries(&mut self) {
        for split in SPLITS {
            let mut entry = 0;
            while let Some(mut parts) = split(&self.smallest.lent.image).filter(|parts| entry < parts.entries.len()) {
                parts.entries.remove(entry);
                let lent = self.with(|lent| lent.image = parts.image());
                if !self.takes(lent) {
                    entry += 1;
                }
            }
        }
    }

    /// Takes ever fewer bytes off the end, as long as the two still differ.
    fn shorter(&mut self, part: Part) {
        let mut bytes = part(&mut self.smallest.lent).len();
        while bytes > 0 {
            let lent = self.with(|lent| {
                let part = part(lent);
                part.truncate(part.len().saturating_sub(bytes));
            });
            if !self.takes(lent) {
                bytes /= 2;
            }
        }
    }

    /// Makes ever fewer bytes at a time zero, as long as the two still differ.
    fn more_zeros(&mut self, part: Part) {
        let length = part(&mut self.smallest.lent).len();
        let mut count = length;
        while count > 0 {
            for at in (0..length).step_by(count) {
                let range = at..length.min(at + count);
                if !is_zero(&part(&mut self.smallest.lent)[range.clone()]) {
                    let lent = self.with(|lent| part(lent)[range].fill(0));
                    self.takes(lent);
                }
            }
            count /= 2;
        }
    }
}

type Split = fn(&[u8]) -> Option<Parts>;

const SPLITS: [Split; 2] = [Parts::split, Parts::split_by_offsets];

fn splits(image: &[u8]) -> impl Iterator<Item = Parts> + '_ {
    SPLITS.iter().filter_map(|split| split(image))
}

/// The parts without the page at this address, those above it a page lower.
fn without_page(mut parts: Parts, address: u64) -> Parts {
    parts.entries.retain(|entry| entry.address() != Some(address));
    for entry in &mut parts.entries {
        match entry.address() {
            Some(above) if above > address => entry.set_address(above.saturating_sub(PAGE_BYTES as u64)),
            _ => {}
        }
    }
    parts
}
