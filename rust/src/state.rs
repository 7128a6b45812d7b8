//! The state of the machine, which cannot be malformed.

use std::fmt;

use crate::layout::{
    number, put_number, record_at, ACCUMULATED, BOUND, FIRST, HALT_MARK, KIND, PC, REGISTERS, SECOND, STATE_BYTES,
    WHOLE,
};
use crate::rule::{check_bound, check_limb, BrokenRule};

/// What a register holds.
///
/// ```
/// use yokeglimmer::Register;
///
/// assert_eq!(Register::Whole(7).to_string(), "7");
/// assert_eq!(Register::Accumulated { low: 5, high: 3 }.to_string(), "3145733 (limbs 5 and 3)");
/// ```
#[derive(Clone, Copy, Debug, PartialEq, Eq, Hash)]
pub enum Register {
    /// 64 bits.
    Whole(u64),
    /// Two limbs below 2^30, which deferred sums and differences leave.
    #[allow(missing_docs)] // of the fields
    Accumulated { low: u64, high: u64 },
}

impl Register {
    /// All 64 bits of a whole register; low + 2^20 * high, modulo 2^40, of an accumulated one.
    ///
    /// ```
    /// use yokeglimmer::Register;
    ///
    /// assert_eq!(Register::Accumulated { low: 5, high: 3 }.value(), 5 + 3 * (1 << 20));
    /// ```
    pub fn value(self) -> u64 {
        match self {
            Register::Whole(value) => value,
            Register::Accumulated { low, high } => low.wrapping_add(high << 20) % (1 << 40),
        }
    }
}

impl fmt::Display for Register {
    fn fmt(&self, f: &mut fmt::Formatter<'_>) -> fmt::Result {
        match self {
            Register::Whole(value) => write!(f, "{value}"),
            Register::Accumulated { low, high } => write!(f, "{} (limbs {low} and {high})", self.value()),
        }
    }
}

/// The pc, the halt mark, and sixteen registers with a bound each. R0 is always whole, zero, with bound 0.
///
/// It is kept as its 400 bytes, which every function here leaves well-formed. That a run does so too follows from what is
/// proved, `RunsKeep` in `crates/agreement` and `written-admissible` in `crates/layout`.
///
/// Registers are named by their numbers, as places of a slice are: every function that is given one panics where it is
/// above 15. Displayed, a state is its pc and mark, then the registers that are not fresh:
///
/// ```
/// use yokeglimmer::{Register, State};
///
/// let mut state = State::new(8);
/// state.set_value(1, 7).expect("R1 takes any value");
/// state.set_register(2, Register::Accumulated { low: 5, high: 3 }).expect("small limbs");
/// assert_eq!(state.to_string(), "pc 8\nR1 7, bound 3\nR2 3145733 (limbs 5 and 3), bound 0");
/// ```
#[derive(Clone, PartialEq, Eq, Hash)]
pub struct State {
    pub(crate) bytes: [u8; STATE_BYTES],
}

impl State {
    /// Fresh: not halted, every register whole, 0, with bound 0.
    ///
    /// ```
    /// let state = yokeglimmer::State::new(0x100);
    /// assert_eq!((state.pc(), state.is_halted(), state.value(15)), (0x100, false, 0));
    /// ```
    pub fn new(pc: u64) -> Self {
        let mut state = State { bytes: [0; STATE_BYTES] };
        state.set_pc(pc);
        state
    }

    /// The address of the next instruction.
    ///
    /// ```
    /// assert_eq!(yokeglimmer::State::new(12).pc(), 12);
    /// ```
    pub fn pc(&self) -> u64 {
        number(&self.bytes, PC)
    }

    /// Changes the address of the next instruction. Any number is taken; a step from one that is no multiple of 4 is
    /// refused.
    ///
    /// ```
    /// let mut state = yokeglimmer::State::new(0);
    /// state.set_pc(u64::MAX);
    /// assert_eq!(state.pc(), u64::MAX);
    /// ```
    pub fn set_pc(&mut self, pc: u64) {
        put_number(&mut self.bytes, PC, pc);
    }

    /// Whether an Ebreak has ended a run. A run of a halted state answers Ebreak after 0 steps.
    ///
    /// ```
    /// use yokeglimmer::{run, Mode, State};
    ///
    /// let mut state = State::new(0);
    /// run(&mut state, &mut [0x32, 0, 0, 0], 10, Mode::Plain).or_refused()?;
    /// assert!(state.is_halted());
    /// # Ok::<(), yokeglimmer::Refused>(())
    /// ```
    pub fn is_halted(&self) -> bool {
        self.bytes[HALT_MARK] == 1
    }

    /// Sets or takes away the mark of an Ebreak: without it a run goes on from the pc.
    ///
    /// ```
    /// let mut state = yokeglimmer::State::new(0);
    /// state.set_halted(true);
    /// assert!(state.is_halted());
    /// ```
    pub fn set_halted(&mut self, halted: bool) {
        self.bytes[HALT_MARK] = halted.into();
    }

    /// What register n holds.
    ///
    /// ```
    /// use yokeglimmer::{Register, State};
    ///
    /// assert_eq!(State::new(0).register(3), Register::Whole(0));
    /// ```
    ///
    /// # Panics
    ///
    /// Where n is above 15.
    pub fn register(&self, n: usize) -> Register {
        let at = place(n);
        let (first, second) = (number(&self.bytes, at + FIRST), number(&self.bytes, at + SECOND));
        if self.bytes[at + KIND] == ACCUMULATED {
            return Register::Accumulated { low: first, high: second };
        }
        Register::Whole(first)
    }

    /// Register n's [value](Register::value).
    ///
    /// ```
    /// assert_eq!(yokeglimmer::State::new(0).value(3), 0);
    /// ```
    ///
    /// # Panics
    ///
    /// Where n is above 15.
    pub fn value(&self, n: usize) -> u64 {
        self.register(n).value()
    }

    /// The bits noted of register n, 0 to 64.
    ///
    /// ```
    /// assert_eq!(yokeglimmer::State::new(0).bound(3), 0);
    /// ```
    ///
    /// # Panics
    ///
    /// Where n is above 15.
    pub fn bound(&self, n: usize) -> u8 {
        self.bytes[place(n) + BOUND]
    }

    /// Whether some register is accumulated. Such a state is for deferred runs: a plain one refuses it (9).
    ///
    /// ```
    /// use yokeglimmer::{run, Mode, State};
    ///
    /// // Addi R1,R0,7; Ebreak
    /// let (mut state, mut memory) = (State::new(0), [0x89, 0x80, 0x03, 0x00, 0x32, 0, 0, 0]);
    /// run(&mut state, &mut memory, 10, Mode::Deferred).or_refused()?;
    /// assert!(state.has_accumulated());
    /// # Ok::<(), yokeglimmer::Refused>(())
    /// ```
    pub fn has_accumulated(&self) -> bool {
        (0..REGISTERS).any(|n| matches!(self.register(n), Register::Accumulated { .. }))
    }

    /// Changes what register n holds, not its bound. Limbs of 2^30 and anything but a whole 0 in R0 are refused.
    ///
    /// ```
    /// use yokeglimmer::{BrokenRule, Register, State};
    ///
    /// let mut state = State::new(0);
    /// state.set_register(1, Register::Accumulated { low: 5, high: 3 })?;
    /// assert_eq!(state.set_register(0, Register::Whole(1)), Err(BrokenRule::ZeroRegister));
    /// # Ok::<(), BrokenRule>(())
    /// ```
    ///
    /// # Panics
    ///
    /// Where n is above 15.
    pub fn set_register(&mut self, n: usize, register: Register) -> Result<(), BrokenRule> {
        let at = place(n);
        let (kind, first, second) = match register {
            Register::Whole(value) => (WHOLE, value, 0),
            Register::Accumulated { low, high } => (ACCUMULATED, low, high),
        };
        if kind == ACCUMULATED {
            check_limb(n, first)?;
            check_limb(n, second)?;
        }
        if n == 0 && register != Register::Whole(0) {
            return Err(BrokenRule::ZeroRegister);
        }
        self.bytes[at + KIND] = kind;
        put_number(&mut self.bytes, at + FIRST, first);
        put_number(&mut self.bytes, at + SECOND, second);
        Ok(())
    }

    /// Changes register n's bound. One over 64, and any but 0 of R0, is refused.
    ///
    /// ```
    /// use yokeglimmer::{BrokenRule, State};
    ///
    /// let mut state = State::new(0);
    /// state.set_bound(1, 40)?;
    /// assert_eq!(state.set_bound(1, 65), Err(BrokenRule::Bound { register: 1, bound: 65 }));
    /// # Ok::<(), BrokenRule>(())
    /// ```
    ///
    /// # Panics
    ///
    /// Where n is above 15.
    pub fn set_bound(&mut self, n: usize, bound: u8) -> Result<(), BrokenRule> {
        let at = place(n);
        check_bound(n, bound)?;
        if n == 0 && bound != 0 {
            return Err(BrokenRule::ZeroRegister);
        }
        self.bytes[at + BOUND] = bound;
        Ok(())
    }

    /// Makes register n whole, with the value and the bound that it needs, as an instruction notes a constant: so a host
    /// writes the result of an Ecall that it serves. Anything but 0 in R0 is refused.
    ///
    /// ```
    /// use yokeglimmer::{BrokenRule, Register, State};
    ///
    /// let mut state = State::new(0);
    /// state.set_value(1, 1000)?;
    /// assert_eq!((state.register(1), state.bound(1)), (Register::Whole(1000), 10));
    /// # Ok::<(), BrokenRule>(())
    /// ```
    ///
    /// # Panics
    ///
    /// Where n is above 15.
    pub fn set_value(&mut self, n: usize, value: u64) -> Result<(), BrokenRule> {
        self.set_register(n, Register::Whole(value))?;
        self.set_bound(n, bits(value))
    }
}

/// The bits that a constant needs.
fn bits(value: u64) -> u8 {
    (u64::BITS - value.leading_zeros()) as u8
}

impl Default for State {
    fn default() -> Self {
        State::new(0)
    }
}

impl fmt::Display for State {
    fn fmt(&self, f: &mut fmt::Formatter<'_>) -> fmt::Result {
        write!(f, "pc {}{}", self.pc(), if self.is_halted() { ", halted" } else { "" })?;
        for n in 0..REGISTERS {
            let (register, bound) = (self.register(n), self.bound(n));
            if (register, bound) != (Register::Whole(0), 0) {
                write!(f, "\nR{n} {register}, bound {bound}")?;
            }
        }
        Ok(())
    }
}

impl fmt::Debug for State {
    fn fmt(&self, f: &mut fmt::Formatter<'_>) -> fmt::Result {
        let registers: [_; REGISTERS] = std::array::from_fn(|n| (self.register(n), self.bound(n)));
        f.debug_struct("State")
            .field("pc", &self.pc())
            .field("halted", &self.is_halted())
            .field("registers", &registers)
            .finish()
    }
}

/// Where register n's record begins.
fn place(n: usize) -> usize {
    assert!(n < REGISTERS, "there is no register R{n}, only R0 to R15");
    record_at(n)
}
