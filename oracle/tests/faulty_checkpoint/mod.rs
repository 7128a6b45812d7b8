//! What finds a wrong writer or reader of checkpoints.

use oracle::checkpoint::{CheckpointSubject, PAGE_BYTES};
use oracle::checkpoint_calls::{any, Call, CheckpointComparer, Lent, What, SECTIONS};
use oracle::random::Random;
use oracle::told::Told;

pub type Write = fn(&[u8], &[u8], &mut [u8]) -> Told;
pub type Read = fn(&[u8], &mut [u8], &mut [u8]) -> Told;

pub const MALFORMED: Told = Told { code: 9, particular: 0, length: 0 };
pub const BAD_IMAGE: Told = Told { code: 11, particular: 0, length: 0 };

struct Faulty {
    write: Write,
    read: Read,
}

impl CheckpointSubject for Faulty {
    fn write(&self, state: &[u8], memory: &[u8], image: &mut [u8]) -> Told {
        (self.write)(state, memory, image)
    }

    fn read(&self, image: &[u8], state: &mut [u8], memory: &mut [u8]) -> Told {
        (self.read)(image, state, memory)
    }
}

/// Tests that these are found to be wrong, by generated calls and by enumerated ones, and that the difference is a call of this
/// kind with at most so many pages and so many bytes that are not zero.
pub fn assert_found(what: What, write: Write, read: Read, most_pages: usize, most_nonzero: usize) {
    let subject = Faulty { write, read };
    let mut random = Random::seeded(1);
    let mut by_generated = CheckpointComparer::new(&subject);
    (0..20_000).all(|_| by_generated.compare(&any(&mut random)));
    let mut by_enumerated = CheckpointComparer::new(&subject);
    for (_, section) in SECTIONS {
        if by_enumerated.difference.is_none() {
            section(&mut |call| {
                by_enumerated.compare(&call);
            });
        }
    }
    for comparer in [by_generated, by_enumerated] {
        let difference = comparer.difference.expect("a wrong subject is found");
        println!("{difference}");
        let Call { what: found, lent: Lent { state, memory, image } } = difference.call;
        let pages = memory.len().div_ceil(PAGE_BYTES);
        let nonzero = [state, memory, image].concat().iter().filter(|&&byte| byte != 0).count();
        assert_eq!(found, what);
        assert!(pages <= most_pages && nonzero <= most_nonzero, "{pages} pages, {nonzero} bytes");
    }
}
