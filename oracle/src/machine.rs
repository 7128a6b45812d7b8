//! One instruction in both modes: the published text where it has the case, document 01's rule where it has not.

use zkir_runtime::deferred::{execute_add_deferred, execute_addi_deferred, execute_sub_deferred, DeferredConfig};
use zkir_runtime::execute::execute;
use zkir_runtime::memory::Memory;
use zkir_runtime::normalize::NormalizationResult;
use zkir_runtime::range_check::RangeCheckTracker;
use zkir_runtime::state::{Held, VMState};
use zkir_spec::{decode, encode, Instruction, Register, Undecodable, ValueBound};

use crate::refusal::Refusal;
use crate::tally::{Counting, Tally};

const NORMALIZED_BITS: u8 = 20;
const LIMB_BITS: u8 = 30;
const CONFIG: DeferredConfig = DeferredConfig { normalized_bits: NORMALIZED_BITS, limb_bits: LIMB_BITS };

/// "a mode number, 0 plain or 1 deferred".
#[derive(Clone, Copy, Debug, PartialEq, Eq)]
pub enum Mode {
    Plain = 0,
    Deferred = 1,
}

impl Mode {
    pub const BOTH: [Mode; 2] = [Mode::Plain, Mode::Deferred];

    pub fn from_number(number: u64) -> Option<Mode> {
        Self::BOTH.into_iter().find(|mode| *mode as u64 == number)
    }
}

/// How a run goes on after a completed instruction.
#[derive(Clone, Copy, Debug, PartialEq, Eq)]
pub enum Onward {
    Next,
    Ebreak,
    Ecall,
}

/// A state with the memory and the lists lent to it.
pub struct Machine<'a, T: Counting = Tally> {
    pub state: VMState,
    pub memory: Memory<'a>,
    pub lists: RangeCheckTracker<'a>,
    pub tally: &'a mut T,
}

/// What an instruction that finds its list full has changed by then: the pc and its destination.
struct Before {
    pc: u64,
    destination: Option<(Register, Held, ValueBound)>,
}

/// The sources that were normalised, with the limbs that they had.
type Settled = [Option<(Register, [u64; 2])>; 2];

impl<T: Counting> Machine<'_, T> {
    /// A single step. "A step tests 9, 6, 7, 4, 5, then 1, or 3 and 2, then 8." It ignores the halt mark.
    pub fn step(&mut self, mode: Mode) -> Result<Onward, Refusal> {
        self.test_well_formed(mode)?;
        match mode {
            Mode::Plain => self.advance::<false, true>(),
            Mode::Deferred => self.advance::<true, true>(),
        }
    }

    /// Executes one given instruction: it "skips 6, 7, 4 and 5 and refuses (9) an instruction that the encoder refuses".
    pub fn execute_given(&mut self, instruction: &Instruction, mode: Mode) -> Result<Onward, Refusal> {
        self.test_well_formed(mode)?;
        encode(instruction).map_err(|_| Refusal::Malformed)?;
        if self.state.pc.checked_add(4).is_none() {
            if let Instruction::Jal { .. } | Instruction::Jalr { .. } = instruction {
                self.jump_at_the_top(instruction);
                return Ok(self.completed(instruction, mode));
            }
        }
        match mode {
            Mode::Plain => self.perform::<false, true>(instruction),
            Mode::Deferred => self.perform::<true, true>(instruction),
        }
    }

    /// "A plain step or run given an accumulated register is refused (9)."
    pub fn test_well_formed(&self, mode: Mode) -> Result<(), Refusal> {
        let fits_mode = mode == Mode::Deferred || self.state.all_whole();
        if self.state.is_well_formed() && self.lists.is_well_formed() && fits_mode {
            return Ok(());
        }
        Err(Refusal::Malformed)
    }

    /// A step of a machine that is known to be well formed; it stays so. The mode, and whether a list may be lent, are
    /// settled before a run, so that no step of it tests them.
    #[inline]
    pub fn advance<const DEFERRED: bool, const LISTING: bool>(&mut self) -> Result<Onward, Refusal> {
        let word = self.fetch()?;
        let instruction = decode(word).map_err(|reason| match reason {
            Undecodable::Opcode => Refusal::Opcode { word },
            Undecodable::Operands => Refusal::Operands { word },
        })?;
        self.perform::<DEFERRED, LISTING>(&instruction)
    }

    /// "pc not a multiple of 4" (6), then "pc + 4 beyond memory, in whole numbers" (7).
    #[inline]
    fn fetch(&self) -> Result<u32, Refusal> {
        let pc = self.state.pc;
        self.memory.read_u32(pc).map_err(|refused| match Refusal::from(refused) {
            Refusal::Misaligned { .. } => Refusal::PcMisaligned { pc },
            Refusal::Beyond { .. } => Refusal::PcBeyond { pc },
            other => other,
        })
    }

    /// "In a deferred run every other instruction [but the limb forms] first normalises its rs1, then rs2, as far as it has
    /// them".
    #[inline]
    fn perform<const DEFERRED: bool, const LISTING: bool>(
        &mut self,
        instruction: &Instruction,
    ) -> Result<Onward, Refusal> {
        if DEFERRED && has_limb_form(instruction) && self.on_limbs(instruction) {
            return Ok(self.completed(instruction, Mode::Deferred));
        }
        if DEFERRED && self.has_accumulated_sources(instruction) {
            self.settled_first::<LISTING>(instruction)?;
        } else {
            self.by_the_text::<LISTING>(instruction)?;
        }
        Ok(self.completed(instruction, if DEFERRED { Mode::Deferred } else { Mode::Plain }))
    }

    /// "A refused step restores even normalised sources."
    fn settled_first<const LISTING: bool>(&mut self, instruction: &Instruction) -> Result<(), Refusal> {
        let settled = self.settle_sources(instruction);
        self.by_the_text::<LISTING>(instruction).inspect_err(|_| self.unsettle(settled))
    }

    /// The text refuses 1, 2 and 3 before it writes anything; a check that finds the list full comes last, and is undone.
    #[inline]
    fn by_the_text<const LISTING: bool>(&mut self, instruction: &Instruction) -> Result<(), Refusal> {
        if !LISTING {
            return Ok(execute(instruction, &mut self.state, &mut self.memory, None)?);
        }
        let before = self.before(instruction);
        execute(instruction, &mut self.state, &mut self.memory, lent(&mut self.lists))?;
        if self.lists.take_found_full() {
            self.restore(&before);
            return Err(Refusal::ListFull { pc: before.pc });
        }
        Ok(())
    }

    #[inline]
    fn completed(&mut self, instruction: &Instruction, mode: Mode) -> Onward {
        self.tally.count(|tally| tally.count_completed(instruction.opcode(), mode));
        match instruction {
            Instruction::Ecall => Onward::Ecall,
            Instruction::Ebreak => Onward::Ebreak,
            _ => Onward::Next,
        }
    }

    #[inline]
    fn before(&self, instruction: &Instruction) -> Before {
        let kept = |register| (register, self.state.register_states.get(register), self.state.read_bound(register));
        Before { pc: self.state.pc, destination: instruction.destination().map(kept) }
    }

    fn restore(&mut self, before: &Before) {
        self.state.pc = before.pc;
        if let Some((register, held, bound)) = before.destination {
            self.state.set_unchecked(register, held, bound.max_bits);
        }
    }

    /// Jal and Jalr at a pc of 2^64-4 or more, where the published sum overflows: the return address wraps. No step comes
    /// here, since no word can be fetched there.
    fn jump_at_the_top(&mut self, instruction: &Instruction) {
        let back = self.state.pc.wrapping_add(4);
        let (rd, target) = match *instruction {
            Instruction::Jal { rd, offset } => (rd, self.state.pc.wrapping_add(offset as u64)),
            Instruction::Jalr { rd, rs1, imm } => {
                self.settle(rs1);
                (rd, self.state.read_reg(rs1).wrapping_add(imm as u64) & !1)
            }
            _ => unreachable!("only jumps note a return address"),
        };
        self.state.write_reg_with_bound(rd, back, ValueBound::from_constant(back));
        self.state.pc = target;
    }

    /// False where it is a Sub that borrows, which is done plainly.
    fn on_limbs(&mut self, instruction: &Instruction) -> bool {
        match *instruction {
            Instruction::Add { rd, rs1, rs2 } => {
                self.count_forced(rs1, |state| limbs(state, rs2));
                execute_add_deferred(&mut self.state, rd, rs1, rs2, &CONFIG, lent(&mut self.lists));
            }
            Instruction::Addi { rd, rs1, imm } => {
                self.count_forced(rs1, |_| [imm as u64 % (1 << 20), (imm as u64 >> 20) % (1 << 20)]);
                execute_addi_deferred(&mut self.state, rd, rs1, imm as u64, &CONFIG, lent(&mut self.lists));
            }
            Instruction::Sub { rd, rs1, rs2 } => {
                if self.borrows(rs1, rs2) {
                    self.tally.count(|tally| tally.borrows += 1);
                    return false;
                }
                execute_sub_deferred(&mut self.state, rd, rs1, rs2, &CONFIG, lent(&mut self.lists));
            }
            _ => unreachable!("the other instructions have no limb form"),
        }
        true
    }

    /// "Sub subtracts limb by limb if neither limb of rs1 is smaller than that of rs2."
    #[inline]
    fn borrows(&self, rs1: Register, rs2: Register) -> bool {
        let (a, b) = (limbs(&self.state, rs1), limbs(&self.state, rs2));
        a[0] < b[0] || a[1] < b[1]
    }

    #[inline]
    fn has_accumulated_sources(&self, instruction: &Instruction) -> bool {
        let accumulated = |register| self.state.register_states.get(register).needs_normalization();
        match instruction {
            Instruction::Ecall => !self.state.all_whole(),
            _ => instruction.sources().into_iter().flatten().any(accumulated),
        }
    }

    /// "Ecall normalises R1 to R15; Ebreak none." A Sub that borrows: "both sources are normalised and the plain Sub is
    /// done."
    fn settle_sources(&mut self, instruction: &Instruction) -> Settled {
        match instruction {
            Instruction::Ecall => {
                (1..16).for_each(|number| _ = self.settle(Register(number)));
                [None; 2]
            }
            Instruction::Sub { rs1, rs2, .. } => [*rs1, *rs2].map(|source| normalised_limbs(&mut self.state, source)),
            _ => instruction.sources().map(|source| source.and_then(|register| self.settle(register))),
        }
    }

    #[inline]
    fn settle(&mut self, register: Register) -> Option<(Register, [u64; 2])> {
        let settled = normalised_limbs(&mut self.state, register);
        self.tally.count(|tally| tally.settled += settled.is_some() as u64);
        settled
    }

    fn unsettle(&mut self, settled: Settled) {
        for (register, limbs) in settled.into_iter().flatten() {
            self.state.write_reg_from_accumulated(register, limbs, LIMB_BITS);
        }
    }

    #[inline]
    fn count_forced(&mut self, rs1: Register, other: impl FnOnce(&VMState) -> [u64; 2]) {
        let state = &self.state;
        self.tally.count(|tally| {
            let (a, b) = (limbs(state, rs1), other(state));
            tally.forced += VMState::would_overflow([a[0] + b[0], a[1] + b[1]], LIMB_BITS) as u64;
        });
    }
}

/// "Add, Sub, Addi on limbs".
#[inline]
fn has_limb_form(instruction: &Instruction) -> bool {
    matches!(instruction, Instruction::Add { .. } | Instruction::Sub { .. } | Instruction::Addi { .. })
}

#[inline]
fn limbs(state: &VMState, register: Register) -> [u64; 2] {
    state.read_reg_limbs_extended(register, NORMALIZED_BITS, LIMB_BITS)
}

/// Normalises a register; gives it with the limbs that it had, if it was accumulated.
#[inline]
fn normalised_limbs(state: &mut VMState, register: Register) -> Option<(Register, [u64; 2])> {
    normalise(state, register).map(|result| (register, result.accumulated))
}

/// "a lent list, empty meaning none is lent".
#[inline]
fn lent<'l, 'a>(lists: &'l mut RangeCheckTracker<'a>) -> Option<&'l mut RangeCheckTracker<'a>> {
    lists.is_lent().then_some(lists)
}

/// "Normalising it [a whole register], or R0, does nothing. Normalising an accumulated one follows `normalize_and_write`".
#[inline]
pub fn normalise(state: &mut VMState, register: Register) -> Option<NormalizationResult> {
    state.normalize_register(register, NORMALIZED_BITS, LIMB_BITS)
}

/// `normalize_register` by itself: limbs of 2^30 or more are refused (9), as `normalize_and_write` refuses them.
pub fn normalize_register(state: &mut VMState, register: Register) -> Result<Option<NormalizationResult>, Refusal> {
    if holds_too_much(state, register) {
        return Err(Refusal::Malformed);
    }
    Ok(normalise(state, register))
}

/// `normalize_if_near_overflow`: the same, where the text would normalise.
pub fn normalize_if_near_overflow(
    state: &mut VMState,
    register: Register,
) -> Result<Option<NormalizationResult>, Refusal> {
    if holds_too_much(state, register) {
        return Err(Refusal::Malformed);
    }
    Ok(state.normalize_if_near_overflow(register, NORMALIZED_BITS, LIMB_BITS))
}

fn holds_too_much(state: &VMState, register: Register) -> bool {
    match state.register_states.get(register) {
        Held::Accumulated(limbs) => register != Register::R0 && VMState::would_overflow(limbs, LIMB_BITS),
        Held::Whole(_) => false,
    }
}

/// `normalize_and_write` "itself answers zeros for R0, then refuses (9) limbs of 2^30 or more; it too keeps the bound."
pub fn normalize_and_write(
    state: &mut VMState,
    register: Register,
    limbs: [u64; 2],
) -> Result<NormalizationResult, Refusal> {
    if register != Register::R0 && VMState::would_overflow(limbs, LIMB_BITS) {
        return Err(Refusal::Malformed);
    }
    Ok(state.normalize_and_write(register, limbs, NORMALIZED_BITS))
}
