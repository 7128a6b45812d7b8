//! What a step is lent and answers, as records of numbers; and a state from and to such a record.

use crate::layout::{ACCUMULATED, REGISTERS, WHOLE};
use crate::rule::BrokenRule;
use crate::state::{Register, State};

/// The bits of an accumulated register's value below its high limb.
const LOW_BITS: u32 = 30;

/// A state as a record. Any numbers can stand in it: which are a state, [`State::try_from`] says.
///
/// ```
/// use yokeglimmer::{raw::Lent, BrokenRule, State};
///
/// let state = State::new(8);
/// let mut lent = Lent::from(&state);
/// assert_eq!((lent.pc, State::try_from(&lent)), (8, Ok(state)));
/// lent.halted = 2;
/// assert_eq!(State::try_from(&lent), Err(BrokenRule::HaltMark { byte: 2 }));
/// ```
#[repr(C)]
#[derive(Clone, Copy, Debug, PartialEq, Eq, Hash)]
pub struct Lent {
    /// The program counter.
    pub pc: u64,
    /// The halt mark, 0 or 1.
    pub halted: u8,
    /// 0 whole, 1 accumulated.
    pub kinds: [u8; REGISTERS],
    /// 0 to 64.
    pub bounds: [u8; REGISTERS],
    /// Of an accumulated register: low + 2^30 * high, with both below 2^30.
    pub values: [u64; REGISTERS],
}

/// A check that is still to be made.
///
/// ```
/// use yokeglimmer::{step, Checks, Mode, Pending, State};
///
/// let mut state = State::new(0);
/// state.set_value(1, 1 << 39).expect("R1 takes any value");
/// let mut room = [Pending::default(); 1];
/// let mut checks = Checks::over(&mut room);
/// // Add R2,R1,R1
/// step(&mut state, &mut [0x01, 0x89, 0x00, 0x00], Mode::Plain, &mut checks).or_refused()?;
/// assert_eq!(checks.entries(), [Pending { value: 0, bound: 41, pc: 0 }]);
/// # Ok::<(), yokeglimmer::Refusal>(())
/// ```
#[repr(C)]
#[derive(Clone, Copy, Debug, Default, PartialEq, Eq, Hash)]
pub struct Pending {
    /// The instruction's result.
    pub value: u64,
    /// The bits noted of it, which are over 40.
    pub bound: u8,
    /// Where the instruction is.
    pub pc: u64,
}

/// What a step of a record answers.
///
/// ```
/// use yokeglimmer::{raw, State};
///
/// let mut lent = raw::Lent::from(&State::new(0));
/// let told = raw::step(&mut lent, &mut [], &mut [], 0, 0);
/// assert_eq!(told, raw::StepAnswer { code: 7, particular: 0, count: 0 });
/// ```
#[repr(C)]
#[derive(Clone, Copy, Debug, PartialEq, Eq, Hash)]
#[must_use]
pub struct StepAnswer {
    /// 0 where the run goes on, 1 to 9 refusals, 64 Ebreak, 65 Ecall.
    pub code: u64,
    /// The pc, address or word that a refusal names, else 0.
    pub particular: u64,
    /// How many records of the list are now in use.
    pub count: usize,
}

impl From<&State> for Lent {
    fn from(state: &State) -> Self {
        let registers = std::array::from_fn(|n| match state.register(n) {
            Register::Whole(value) => (WHOLE, value),
            Register::Accumulated { low, high } => (ACCUMULATED, low + (high << LOW_BITS)),
        });
        Lent {
            pc: state.pc(),
            halted: state.is_halted().into(),
            kinds: registers.map(|(kind, _)| kind),
            bounds: std::array::from_fn(|n| state.bound(n)),
            values: registers.map(|(_, value)| value),
        }
    }
}

/// The inverse; it refuses the records that are no state's, with the rule.
impl TryFrom<&Lent> for State {
    type Error = BrokenRule;

    fn try_from(lent: &Lent) -> Result<Self, BrokenRule> {
        let mut state = State::new(lent.pc);
        if lent.halted > 1 {
            return Err(BrokenRule::HaltMark { byte: lent.halted });
        }
        state.set_halted(lent.halted == 1);
        for n in 0..REGISTERS {
            state.set_register(n, register(n, lent)?)?;
            state.set_bound(n, lent.bounds[n])?;
        }
        Ok(state)
    }
}

fn register(n: usize, lent: &Lent) -> Result<Register, BrokenRule> {
    let value = lent.values[n];
    match lent.kinds[n] {
        WHOLE => Ok(Register::Whole(value)),
        ACCUMULATED => Ok(Register::Accumulated { low: value % (1 << LOW_BITS), high: value >> LOW_BITS }),
        byte => Err(BrokenRule::Kind { register: n, byte }),
    }
}
