//! All words, by all processors.

use std::thread;

/// What is answered of an equal part of the words from 0 to 2^32 - 1 on each processor, in the order of the words.
pub fn by_all_processors<T: Send>(answer: impl Fn(Words) -> T + Sync) -> Vec<T> {
    let threads = thread::available_parallelism().map_or(1, usize::from) as u64;
    let bound = |part: u64| part * (1 << 32) / threads;
    let answer = &answer;
    thread::scope(|scope| {
        let start = |part: u64| scope.spawn(move || answer(Words::between(bound(part), bound(part + 1))));
        let handles: Vec<_> = (0..threads).map(start).collect();
        handles.into_iter().map(|handle| handle.join().expect("a comparison does not panic")).collect()
    })
}

/// Words in their order.
pub struct Words {
    next: u64,
    end: u64,
}

impl Words {
    /// From the first on, up to the end but without it.
    pub fn between(first: u64, end: u64) -> Self {
        Self { next: first, end }
    }
}

impl Iterator for Words {
    type Item = u32;

    fn next(&mut self) -> Option<u32> {
        let word = self.next;
        self.next += 1;
        (word < self.end).then_some(word as u32)
    }
}
