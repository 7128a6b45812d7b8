//! A machine kept as bytes, to go on with elsewhere.

use crate::bad_checkpoint::{BadCheckpoint, WrongMemory};
use crate::image::{what_is_wrong, Wrong, MOST_IMAGE_BYTES, MOST_MEMORY_BYTES};
use crate::layout::STATE_BYTES;
use crate::raw;
use crate::state::State;

/// A state and its memory, as an image holds them. A run from them goes on, in the same mode and with memory of the same
/// length, as the one would have that was broken off.
///
/// ```
/// use yokeglimmer::{run, Checkpoint, Mode, State, Stop};
///
/// // Addi R1,R0,7; Add R2,R1,R1; Ebreak
/// let mut memory = vec![0; 4096];
/// memory[..12].copy_from_slice(&[0x89, 0x80, 0x03, 0x00, 0x01, 0x89, 0x00, 0x00, 0x32, 0x00, 0x00, 0x00]);
/// let mut state = State::new(0);
/// assert_eq!(run(&mut state, &mut memory, 2, Mode::Deferred).stop, Stop::Fuel);
/// let image = Checkpoint::write(&state, &memory)?;
///
/// let Checkpoint { mut state, mut memory } = Checkpoint::read(&image, 4096)?;
/// assert!(state.has_accumulated());
/// assert_eq!(run(&mut state, &mut memory, 10, Mode::Deferred).stop, Stop::Ebreak);
/// assert_eq!(state.value(2), 14);
/// # Ok::<(), Box<dyn std::error::Error>>(())
/// ```
#[derive(Clone, Debug, PartialEq, Eq, Hash)]
pub struct Checkpoint {
    /// The state.
    pub state: State,
    /// The memory, from address 0 on.
    pub memory: Vec<u8>,
}

impl Checkpoint {
    /// The image of a state and its memory, which has a multiple of 4,096 bytes, at most 65,536. Pages of zeros take no
    /// room in it. docs/MACHINE.md has its bytes.
    ///
    /// ```
    /// use yokeglimmer::{Checkpoint, State, WrongMemory};
    ///
    /// assert_eq!(Checkpoint::write(&State::new(0), &[0; 65_536])?.len(), 416);
    /// assert_eq!(Checkpoint::write(&State::new(0), &[7; 65_536])?.len(), 66_272);
    /// # Ok::<(), WrongMemory>(())
    /// ```
    ///
    /// # Panics
    ///
    /// If the archive gives an answer that the rules have not, which is proved not to happen: then another one is linked.
    pub fn write(state: &State, memory: &[u8]) -> Result<Vec<u8>, WrongMemory> {
        let mut room = vec![0; MOST_IMAGE_BYTES];
        let told = raw::checkpoint_write(&state.bytes, memory, &mut room);
        match (told.code, WrongMemory::of(memory.len())) {
            (0, _) => Ok(room[..told.length as usize].to_vec()),
            (9, Some(wrong)) => Err(wrong),
            _ => panic!("the archive answered {told:?}, which is no answer for a state and {} bytes", memory.len()),
        }
    }

    /// The state and the memory of that length whose image this is, to its last byte. The image does not hold the length:
    /// the host knows how much memory its machines have. A file's bytes can be given as they are.
    ///
    /// ```
    /// use yokeglimmer::{Checkpoint, State};
    ///
    /// let image = Checkpoint::write(&State::new(12), &[7; 4096])?;
    /// assert_eq!(Checkpoint::read(&image, 4096)?, Checkpoint { state: State::new(12), memory: vec![7; 4096] });
    ///
    /// let bad = Checkpoint::read(&image[..100], 4096).unwrap_err();
    /// let said = "bytes are missing at the end: the image has 100, and its table tells of 4532";
    /// assert_eq!(bad.to_string(), format!("refused 11: {said} (byte 100 of the image)"));
    /// # Ok::<(), Box<dyn std::error::Error>>(())
    /// ```
    ///
    /// # Panics
    ///
    /// If the archive gives an answer that the rules have not, which is proved not to happen: then another one is linked.
    pub fn read(image: &[u8], memory_length: usize) -> Result<Checkpoint, BadCheckpoint> {
        // a length that is too large is refused, whichever it is: none is too large to be lent
        let (mut state, mut memory) = ([0; STATE_BYTES], vec![0; memory_length.min(MOST_MEMORY_BYTES + 1)]);
        let told = raw::checkpoint_read(image, &mut state, &mut memory);
        let refused = match told.code {
            0 => return Ok(Checkpoint { state: restored(state), memory }),
            9 => WrongMemory::of(memory_length).map(BadCheckpoint::Memory),
            11 => what_is_wrong(image, memory_length).map(|Wrong { at, damage }| BadCheckpoint::Image { at, damage }),
            _ => None,
        };
        Err(refused.unwrap_or_else(|| panic!("the archive answered {told:?}, and nothing is wrong with the image")))
    }
}

fn restored(bytes: [u8; STATE_BYTES]) -> State {
    State::try_from(bytes).unwrap_or_else(|malformed| panic!("the archive left bytes that are no state's: {malformed}"))
}
