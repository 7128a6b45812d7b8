//! The archive's calls, each as a safe function over what it is lent. This is the one place where they are declared in
//! Rust, and the only unsafe code here.

#[cfg(feature = "step")]
pub use crate::record::{Lent, Pending, StepAnswer};
#[cfg(any(feature = "text", feature = "checkpoint"))]
pub use crate::told::Told;

/// As Rattle's `extern "C"` has them: a slice is a pointer and a length, a record that is lent is a pointer.
mod archive {
    extern "C" {
        pub fn zkir_run(
            state: *mut u8,
            state_length: usize,
            memory: *mut u8,
            memory_length: usize,
            answer: *mut u8,
            answer_length: usize,
            fuel: u64,
            mode: u64,
        ) -> u64;

        #[cfg(feature = "step")]
        pub fn zkir_step(
            state: *mut super::Lent,
            memory: *mut u8,
            memory_length: usize,
            list: *mut super::Pending,
            list_length: usize,
            count: usize,
            mode: u64,
        ) -> super::StepAnswer;

        #[cfg(feature = "text")]
        pub fn zkir_assemble(
            text: *const u8,
            text_length: usize,
            words: *mut u8,
            words_length: usize,
            labels: *mut u64,
            labels_length: usize,
        ) -> super::Told;

        #[cfg(feature = "text")]
        pub fn zkir_print(words: *const u8, words_length: usize, text: *mut u8, text_length: usize) -> super::Told;

        #[cfg(feature = "checkpoint")]
        pub fn zkir_checkpoint_write(
            state: *const u8,
            state_length: usize,
            memory: *const u8,
            memory_length: usize,
            image: *mut u8,
            image_length: usize,
        ) -> super::Told;

        #[cfg(feature = "checkpoint")]
        pub fn zkir_checkpoint_read(
            image: *const u8,
            image_length: usize,
            state: *mut u8,
            state_length: usize,
            memory: *mut u8,
            memory_length: usize,
        ) -> super::Told;
    }
}

/// `zkir_run` over bytes: the state's, the memory's and the answer's, which are code, steps and particular. Mode 0 is
/// plain, 1 deferred. The code is also returned.
///
/// Every argument is allowed. A malformed one is refused with code 9, and then nothing is changed but the answer, and
/// that only if it has 24 bytes.
///
/// ```
/// use yokeglimmer::{raw, ANSWER_BYTES, STATE_BYTES};
///
/// let (mut state, mut memory, mut answer) = ([0; STATE_BYTES], [0x32, 0, 0, 0], [0; ANSWER_BYTES]);
/// assert_eq!(raw::run(&mut state, &mut memory, &mut answer, 10, 0), 64); // Ebreak
/// assert_eq!((answer[0], answer[8]), (64, 1));
/// assert_eq!(raw::run(&mut state, &mut memory, &mut answer, 10, 2), 9); // there is no mode 2
/// ```
pub fn run(state: &mut [u8], memory: &mut [u8], answer: &mut [u8], fuel: u64, mode: u64) -> u64 {
    // SAFETY: the call is proved for any three slices that are lent apart from each other, empty ones too, and keeps
    // none of them; `&mut` lends them so.
    unsafe {
        archive::zkir_run(
            state.as_mut_ptr(),
            state.len(),
            memory.as_mut_ptr(),
            memory.len(),
            answer.as_mut_ptr(),
            answer.len(),
            fuel,
            mode,
        )
    }
}

/// `zkir_step` over a record, the memory's bytes, and a list of pending checks, of which the first `count` are in use.
/// Mode 0 is plain, 1 deferred. An empty list means that none is lent.
///
/// Every argument is allowed. One that the rules forbid is refused with code 9. A refused step changes nothing.
///
/// ```
/// use yokeglimmer::{raw, State};
///
/// let mut lent = raw::Lent::from(&State::new(0));
/// let mut memory = [0x89, 0x80, 0x03, 0x00]; // Addi R1,R0,7
/// assert_eq!(raw::step(&mut lent, &mut memory, &mut [], 0, 0).code, 0);
/// assert_eq!((lent.pc, lent.values[1], lent.bounds[1]), (4, 7, 4));
/// ```
#[cfg(feature = "step")]
pub fn step(state: &mut Lent, memory: &mut [u8], list: &mut [Pending], count: usize, mode: u64) -> StepAnswer {
    // SAFETY: the call is proved for any record and any two slices that are lent apart from each other, empty ones too,
    // and keeps none of them; `&mut` lends them so.
    unsafe { archive::zkir_step(state, memory.as_mut_ptr(), memory.len(), list.as_mut_ptr(), list.len(), count, mode) }
}

/// `zkir_assemble`: the words of the text, four bytes each, into the front of `words`; the bytes behind them stay. `labels`
/// is room for the text's labels, three numbers each, and is handed back all zeros.
///
/// Every argument is allowed. Refused are, in this order: too short a `labels` (9), a text with a bad line (10, with the
/// first one's number), too short a `words` (9); then `words` stays as it was. Three numbers for each colon and four bytes
/// for each line always suffice.
///
/// ```
/// use yokeglimmer::raw;
///
/// let (mut words, mut labels) = ([0xff; 10], [0; 3]);
/// let told = raw::assemble(b"loop:\nJal R0, loop\nEbreak\n", &mut words, &mut labels);
/// assert_eq!(told, raw::Told { code: 0, particular: 0, length: 8 });
/// assert_eq!(words, [0x2f, 0, 0, 0, 0x32, 0, 0, 0, 0xff, 0xff]);
/// assert_eq!(raw::assemble(b"loop:\nloop:\n", &mut words, &mut [0; 6]).particular, 2); // defined already
/// ```
#[cfg(feature = "text")]
pub fn assemble(text: &[u8], words: &mut [u8], labels: &mut [u64]) -> Told {
    // SAFETY: the call is proved for any three slices that are lent apart from each other, empty ones too, keeps none of
    // them and doesn't write to the first; `&` and `&mut` lend them so.
    unsafe {
        archive::zkir_assemble(
            text.as_ptr(),
            text.len(),
            words.as_mut_ptr(),
            words.len(),
            labels.as_mut_ptr(),
            labels.len(),
        )
    }
}

/// `zkir_print`: the text of the words, a line for each, into the front of `text`; the bytes behind it stay.
///
/// Every argument is allowed. Refused are, in this order: `words` of a length that is no multiple of 4 (9), a word that is
/// no instruction (4 or 5, with the first such word), too short a `text` (9); then `text` stays as it was.
/// [`PRINTED_BYTES`](crate::PRINTED_BYTES) for each word always suffice.
///
/// ```
/// use yokeglimmer::raw;
///
/// let mut text = [0; 20];
/// let told = raw::print(&[0x27, 0x19, 0x04, 0x00], &mut text);
/// assert_eq!(told, raw::Told { code: 0, particular: 0, length: 13 });
/// assert_eq!(&text[..13], b"Sw R2, R3, 8\n");
/// assert_eq!(raw::print(&[0x33, 0, 0, 0], &mut text).code, 4); // there is no opcode 51
/// ```
#[cfg(feature = "text")]
pub fn print(words: &[u8], text: &mut [u8]) -> Told {
    // SAFETY: the call is proved for any two slices that are lent apart from each other, empty ones too, keeps none of them
    // and doesn't write to the first; `&` and `&mut` lend them so.
    unsafe { archive::zkir_print(words.as_ptr(), words.len(), text.as_mut_ptr(), text.len()) }
}

/// `zkir_checkpoint_write`: the image of the state's bytes and the memory, into the front of `image`; the bytes behind it
/// stay. docs/MACHINE.md has the bytes of an image.
///
/// Every argument is allowed. Refused are, in this order: a memory of a length that is no multiple of 4,096 or over 65,536
/// and bytes that are no state's (9), too short an `image` (11); then `image` stays as it was.
/// [`MOST_IMAGE_BYTES`](crate::MOST_IMAGE_BYTES) always suffice.
///
/// ```
/// use yokeglimmer::{raw, State};
///
/// let (state, mut memory, mut image) = (State::new(0).to_bytes(), [0; 8192], [0; 4532]);
/// memory[4096] = 7;
/// let told = raw::checkpoint_write(&state, &memory, &mut image);
/// assert_eq!(told, raw::Told { code: 0, particular: 0, length: 4532 });
/// // two entries, the first of kind 1, at byte 28, with 400 bytes
/// assert_eq!(image[..16], [2, 0, 0, 0, 1, 0, 0, 0, 28, 0, 0, 0, 144, 1, 0, 0]);
/// assert_eq!(raw::checkpoint_write(&state, &memory, &mut image[..4531]).code, 11);
/// ```
#[cfg(feature = "checkpoint")]
pub fn checkpoint_write(state: &[u8], memory: &[u8], image: &mut [u8]) -> Told {
    // SAFETY: the call is proved for any three slices of which the last is lent apart from the others, empty ones too,
    // keeps none of them and writes to the last alone; `&` and `&mut` lend them so.
    unsafe {
        archive::zkir_checkpoint_write(
            state.as_ptr(),
            state.len(),
            memory.as_ptr(),
            memory.len(),
            image.as_mut_ptr(),
            image.len(),
        )
    }
}

/// `zkir_checkpoint_read`: the state's bytes and the memory become those whose image this is, to its last byte. The length
/// that is told is 0.
///
/// Every argument is allowed. Refused are, in this order: a memory of a length as above and a `state` of another length
/// than 400 (9), bytes that are the image of no state and memory of that length (11). Then state and memory stay as they
/// were.
///
/// ```
/// use yokeglimmer::{raw, State, MOST_IMAGE_BYTES};
///
/// let mut image = [0; MOST_IMAGE_BYTES];
/// let length = raw::checkpoint_write(&State::new(12).to_bytes(), &[7; 4096], &mut image).length as usize;
/// let (mut state, mut memory) = ([0; 400], [0; 4096]);
/// let told = raw::checkpoint_read(&image[..length], &mut state, &mut memory);
/// assert_eq!(told, raw::Told { code: 0, particular: 0, length: 0 });
/// assert_eq!((state, memory), (State::new(12).to_bytes(), [7; 4096]));
/// assert_eq!(raw::checkpoint_read(&image, &mut state, &mut memory).code, 11); // bytes behind the image
/// ```
#[cfg(feature = "checkpoint")]
pub fn checkpoint_read(image: &[u8], state: &mut [u8], memory: &mut [u8]) -> Told {
    // SAFETY: the call is proved for any three slices that are lent apart from each other, empty ones too, keeps none of
    // them and doesn't write to the first; `&` and `&mut` lend them so.
    unsafe {
        archive::zkir_checkpoint_read(
            image.as_ptr(),
            image.len(),
            state.as_mut_ptr(),
            state.len(),
            memory.as_mut_ptr(),
            memory.len(),
        )
    }
}
