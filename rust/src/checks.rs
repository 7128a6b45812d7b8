//! A list of pending checks.

use crate::record::Pending;

/// Pending checks in room that is lent, in the order of the steps that asked for them.
///
/// ```
/// use yokeglimmer::{Checks, Pending};
///
/// let mut room = [Pending::default(); 100];
/// let checks = Checks::over(&mut room);
/// assert_eq!(checks.entries(), []);
/// ```
#[derive(Debug)]
pub struct Checks<'a> {
    pub(crate) room: &'a mut [Pending],
    pub(crate) count: usize,
}

impl<'a> Checks<'a> {
    /// An empty list, for as many checks as there are records. For none at all it is as [`Checks::none`].
    ///
    /// ```
    /// use yokeglimmer::{step, Checks, Mode, Pending, Refusal, State, Stepped};
    ///
    /// let mut state = State::new(0);
    /// state.set_value(1, 1 << 39).expect("R1 takes any value");
    /// let mut memory = [0x01, 0x89, 0x00, 0x00, 0x01, 0x89, 0x00, 0x00]; // Add R2,R1,R1, twice
    /// let mut room = [Pending::default(); 1];
    /// let mut checks = Checks::over(&mut room);
    /// assert_eq!(step(&mut state, &mut memory, Mode::Plain, &mut checks), Stepped::On);
    /// let full = Stepped::Refused(Refusal::ListFull { pc: 4 });
    /// assert_eq!(step(&mut state, &mut memory, Mode::Plain, &mut checks), full);
    /// ```
    pub fn over(room: &'a mut [Pending]) -> Self {
        Checks { room, count: 0 }
    }

    /// No list: no check is listed, and no step refused for want of room.
    ///
    /// ```
    /// use yokeglimmer::Checks;
    ///
    /// assert_eq!(Checks::none().entries(), []);
    /// ```
    pub fn none() -> Self {
        Checks::over(&mut [])
    }

    /// The checks that are listed.
    ///
    /// ```
    /// use yokeglimmer::{Checks, Pending};
    ///
    /// let mut room = [Pending::default(); 2];
    /// assert!(Checks::over(&mut room).entries().is_empty());
    /// ```
    pub fn entries(&self) -> &[Pending] {
        &self.room[..self.count]
    }

    /// Makes all of the room usable again.
    ///
    /// ```
    /// use yokeglimmer::{step, Checks, Mode, Pending, State, Stepped};
    ///
    /// let mut state = State::new(0);
    /// state.set_value(1, 1 << 39).expect("R1 takes any value");
    /// let mut memory = [0x01, 0x89, 0x00, 0x00, 0x01, 0x89, 0x00, 0x00]; // Add R2,R1,R1, twice
    /// let mut room = [Pending::default(); 1];
    /// let mut checks = Checks::over(&mut room);
    /// assert_eq!(step(&mut state, &mut memory, Mode::Plain, &mut checks), Stepped::On);
    /// checks.clear();
    /// assert_eq!(step(&mut state, &mut memory, Mode::Plain, &mut checks), Stepped::On);
    /// assert_eq!(checks.entries()[0].pc, 4);
    /// ```
    pub fn clear(&mut self) {
        self.count = 0;
    }
}
