use zkir_spec::{Register, ValueBound};

#[derive(Clone, Copy, Debug, PartialEq, Eq)]
pub enum HaltReason {
    Ebreak,
}

/// "A register is whole (64 bits) or accumulated (two limbs)."
#[derive(Clone, Copy, Debug, PartialEq, Eq)]
pub enum Held {
    Whole(u64),
    Accumulated([u64; 2]),
}

impl Held {
    #[inline]
    pub fn is_normalized(&self) -> bool {
        matches!(self, Held::Whole(_))
    }

    #[inline]
    pub fn needs_normalization(&self) -> bool {
        !self.is_normalized()
    }

    /// "the register's value is low + 2^20 * high, modulo 2^40"; a whole register's is all its 64 bits.
    #[inline]
    pub fn value(&self) -> u64 {
        match *self {
            Held::Whole(value) => value,
            Held::Accumulated([low, high]) => (low + (high << 20)) % (1 << 40),
        }
    }
}

/// What the sixteen registers hold, each part in a list of its own; `normalize.rs` asks it through `get`. A whole register
/// has no high limb: what stands there does not count.
#[derive(Clone, Copy, Debug, Eq)]
pub struct Registers {
    accumulated: [bool; 16],
    whole_or_low: [u64; 16],
    high: [u64; 16],
}

impl Registers {
    #[inline]
    pub fn get(&self, register: Register) -> Held {
        let at = register.index();
        if self.accumulated[at] {
            return Held::Accumulated([self.whole_or_low[at], self.high[at]]);
        }
        Held::Whole(self.whole_or_low[at])
    }

    #[inline]
    fn set(&mut self, register: Register, held: Held) {
        let at = register.index();
        self.accumulated[at] = held.needs_normalization();
        match held {
            Held::Whole(value) => self.whole_or_low[at] = value,
            Held::Accumulated([low, high]) => (self.whole_or_low[at], self.high[at]) = (low, high),
        }
    }
}

impl PartialEq for Registers {
    fn eq(&self, other: &Self) -> bool {
        (0..16).map(Register).all(|register| self.get(register) == other.get(register))
    }
}

#[derive(Clone, Copy, Debug, PartialEq, Eq)]
pub struct VMState {
    pub pc: u64,
    pub halted: bool,
    pub register_states: Registers,
    pub bounds: [ValueBound; 16],
}

impl VMState {
    /// "Fresh registers are whole 0, bound 0."
    #[inline]
    pub fn fresh() -> Self {
        Self {
            pc: 0,
            halted: false,
            register_states: Registers { accumulated: [false; 16], whole_or_low: [0; 16], high: [0; 16] },
            bounds: [ValueBound { max_bits: 0 }; 16],
        }
    }

    /// Sets what a register holds and notes, R0 too: for a state that is still to be judged by `is_well_formed`.
    #[inline]
    pub fn set_unchecked(&mut self, register: Register, held: Held, bound: u32) {
        self.register_states.set(register, held);
        self.bounds[register.index()] = ValueBound { max_bits: bound };
    }

    /// "R0 is whole, zero, bound 0"; bounds "of 0 to 64 bits"; "Accumulated limbs are below 2^30".
    #[inline]
    pub fn is_well_formed(&self) -> bool {
        self.register_states.get(Register::R0) == Held::Whole(0)
            && self.bounds[0].max_bits == 0
            && self.bounds.iter().all(|bound| bound.max_bits <= 64)
            && (0..16).all(|number| match self.register_states.get(Register(number)) {
                Held::Whole(_) => true,
                Held::Accumulated(limbs) => limbs.iter().all(|&limb| limb < 1 << 30),
            })
    }

    #[inline]
    pub fn all_whole(&self) -> bool {
        self.register_states.accumulated == [false; 16]
    }

    /// The whole value. Nothing in the published text may read an accumulated register this way.
    #[inline]
    pub fn read_reg(&self, register: Register) -> u64 {
        debug_assert!(!self.register_states.accumulated[register.index()], "{register:?} was not normalised");
        self.register_states.whole_or_low[register.index()]
    }

    #[inline]
    pub fn read_bound(&self, register: Register) -> ValueBound {
        self.bounds[register.index()]
    }

    /// "Whole values are stored uncut". R0 "ignores writes of either".
    #[inline]
    pub fn write_reg_with_bound(&mut self, register: Register, value: u64, bound: ValueBound) {
        self.hold(register, Held::Whole(value));
        self.write_bound(register, bound);
    }

    #[inline]
    pub fn write_bound(&mut self, register: Register, bound: ValueBound) {
        if register != Register::R0 {
            self.bounds[register.index()] = bound;
        }
    }

    /// "A whole register's limbs are bits 0-19 and 20-39."
    #[inline]
    pub fn read_reg_limbs_extended(&self, register: Register, normalized_bits: u8, limb_bits: u8) -> [u64; 2] {
        debug_assert_eq!((normalized_bits, limb_bits), (20, 30), "no other configuration is in scope");
        match self.register_states.get(register) {
            Held::Whole(value) => [value % (1 << 20), (value >> 20) % (1 << 20)],
            Held::Accumulated(limbs) => limbs,
        }
    }

    /// "Results of the limb forms are accumulated."
    #[inline]
    pub fn write_reg_from_accumulated(&mut self, register: Register, limbs: [u64; 2], limb_bits: u8) {
        debug_assert_eq!(limb_bits, 30, "no other configuration is in scope");
        debug_assert!(limbs.iter().all(|&limb| limb < 1 << 30), "limbs {limbs:x?} are not below 2^30");
        self.hold(register, Held::Accumulated(limbs));
    }

    /// Normalising "makes it whole, keeps its bound".
    #[inline]
    pub fn write_reg_from_limbs(&mut self, register: Register, limbs: [u32; 2], normalized_bits: u8) {
        debug_assert_eq!(normalized_bits, 20, "no other configuration is in scope");
        self.hold(register, Held::Whole(limbs[0] as u64 + ((limbs[1] as u64) << 20)));
    }

    /// "Addresses and the program counter wrap modulo 2^64".
    #[inline]
    pub fn advance_pc(&mut self, offset: i64) {
        self.pc = self.pc.wrapping_add(offset as u64);
    }

    /// "Ebreak keeps the pc and marks the halt".
    #[inline]
    pub fn halt(&mut self, _reason: HaltReason) {
        self.halted = true;
    }

    #[inline]
    fn hold(&mut self, register: Register, held: Held) {
        if register != Register::R0 {
            self.register_states.set(register, held);
        }
    }
}
