//! Where the published text, asked directly, departs from document 01: the smallest inputs, kept as tests.

use std::panic::catch_unwind;

use oracle::machine::{normalize_and_write, normalize_if_near_overflow, normalize_register, Machine, Mode};
use oracle::refusal::Refusal;
use oracle::tally::Tally;
use zkir_runtime::deferred::{execute_sub_deferred, DeferredConfig};
use zkir_runtime::error::RuntimeError;
use zkir_runtime::execute::execute;
use zkir_runtime::memory::Memory;
use zkir_runtime::range_check::RangeCheckTracker;
use zkir_runtime::state::{Held, VMState};
use zkir_spec::{Instruction, Opcode, Register};

const R0: Register = Register(0);
const R1: Register = Register(1);

fn r1(held: Held) -> VMState {
    let mut state = VMState::fresh();
    state.set_unchecked(R1, held, 1);
    state
}

fn given(state: VMState, instruction: Instruction, mode: Mode) -> VMState {
    let mut machine =
        Machine { state, memory: Memory::lent(&mut []), lists: RangeCheckTracker::none(), tally: &mut Tally::new() };
    machine.execute_given(&instruction, mode).expect("not refused");
    machine.state
}

fn by_the_text(
    instruction: Instruction,
    state: &mut VMState,
    lists: Option<&mut RangeCheckTracker>,
) -> Result<(), RuntimeError> {
    execute(&instruction, state, &mut Memory::lent(&mut []), lists)
}

/// By document 01, in the plain mode: refused, and nothing changed.
fn refused(state: VMState, instruction: Instruction, lists: RangeCheckTracker) -> Refusal {
    let mut machine = Machine { state, memory: Memory::lent(&mut []), lists, tally: &mut Tally::new() };
    let refusal = machine.execute_given(&instruction, Mode::Plain).expect_err("refused");
    assert_eq!(machine.state, state);
    refusal
}

/// Sub R1,R0,R1 (word 00008082) with R1 = 1: the text's low limb is 2^64-1, which is no limb; 01 does the plain Sub.
#[test]
fn a_deferred_sub_that_borrows() {
    let mut state = r1(Held::Whole(1));
    let text = catch_unwind(move || execute_sub_deferred(&mut state, R1, R0, R1, &DeferredConfig::default(), None));
    let complaint = *text.expect_err("the stand-in takes no such limb").downcast::<String>().expect("a message");
    assert!(complaint.contains("ffffffffffffffff"), "{complaint}");
    let sub = Instruction::Sub { rd: R1, rs1: R0, rs2: R1 };
    let state = given(r1(Held::Whole(1)), sub, Mode::Deferred);
    assert_eq!(state.register_states.get(R1), Held::Whole(0xff_ffff_ffff));
}

/// Jal R1,0 and Jalr R1,R0,0 given at pc 2^64-4: the text's sum overflows (built with overflow checks it panics); 01 wraps
/// to 0.
#[test]
fn a_return_address_at_the_top() {
    let mut state = VMState::fresh();
    state.pc = u64::MAX - 3;
    for jump in [Instruction::Jal { rd: R1, offset: 0 }, Instruction::Jalr { rd: R1, rs1: R0, imm: 0 }] {
        assert!(catch_unwind(move || by_the_text(jump, &mut { state }, None)).is_err(), "{jump:?}");
        assert_eq!(given(state, jump, Mode::Plain).read_reg(R1), 0);
    }
}

/// Slli R1,R1,64 given, R1 = 1: the text shifts, and leaves 0; 01 refuses (9) what the encoder refuses.
#[test]
fn a_shift_amount_that_fits_no_word() {
    let slli = Instruction::Slli { rd: R1, rs1: R1, shamt: 64 };
    let mut state = r1(Held::Whole(1));
    assert_eq!(by_the_text(slli, &mut state, None), Ok(()));
    assert_eq!((state.read_reg(R1), state.pc), (0, 4));
    assert_eq!(refused(r1(Held::Whole(1)), slli, RangeCheckTracker::none()), Refusal::Malformed);
}

/// Addi R1,R0,65536 and Jal R1,2^20 given: the text takes them as they are; 01 refuses (9) what the encoder refuses.
#[test]
fn an_immediate_that_fits_no_word() {
    let addi = Instruction::Addi { rd: R1, rs1: R0, imm: 0x1_0000 };
    let mut state = VMState::fresh();
    assert_eq!(by_the_text(addi, &mut state, None), Ok(()));
    assert_eq!((state.read_reg(R1), state.pc), (0x1_0000, 4));
    assert_eq!(refused(VMState::fresh(), addi, RangeCheckTracker::none()), Refusal::Malformed);

    let jal = Instruction::Jal { rd: R1, offset: 0x10_0000 };
    let mut state = VMState::fresh();
    assert_eq!(by_the_text(jal, &mut state, None), Ok(()));
    assert_eq!((state.read_reg(R1), state.pc), (4, 0x10_0000));
    assert_eq!(refused(VMState::fresh(), jal, RangeCheckTracker::none()), Refusal::Malformed);
}

/// Add R1,R1,R1, R1 = 1 of 40 bits, a list without room: the text looks at no answer of the list and goes on; 01 refuses (8).
#[test]
fn a_check_that_finds_the_list_full() {
    let add = Instruction::Add { rd: R1, rs1: R1, rs2: R1 };
    let mut state = VMState::fresh();
    state.set_unchecked(R1, Held::Whole(1), 40);
    let before = state;
    let mut entries = [[0], [0], [0]];
    let [values, bounds, pcs] = &mut entries;
    assert_eq!(by_the_text(add, &mut state, Some(&mut RangeCheckTracker::lent(values, bounds, pcs, 1))), Ok(()));
    assert_eq!(state.read_reg(R1), 2);
    let [values, bounds, pcs] = &mut entries;
    assert_eq!(refused(before, add, RangeCheckTracker::lent(values, bounds, pcs, 1)), Refusal::ListFull { pc: 0 });
}

/// Jal R0,0 with R1 accumulated, limbs 0 and 0: the text does not look; 01 refuses (9) it in the plain mode.
#[test]
fn an_accumulated_register_in_the_plain_mode() {
    let jal = Instruction::Jal { rd: R0, offset: 0 };
    let state = r1(Held::Accumulated([0, 0]));
    assert_eq!(by_the_text(jal, &mut { state }, None), Ok(()));
    assert_eq!(refused(state, jal, RangeCheckTracker::none()), Refusal::Malformed);
}

/// The text's comment counts 47 instructions; its match has 50, which are those of document 01, in its order.
#[test]
fn the_comment_counts_47() {
    let text = zkir_runtime::TEXTS.iter().find(|(name, _)| *name == "execute.rs").expect("execute.rs is published").1;
    assert!(text.contains("all 47 instructions"));
    let arms = text.lines().filter_map(|line| line.strip_prefix("        Instruction::"));
    let names: Vec<&str> = arms.map(|arm| arm.split(' ').next().expect("a name")).collect();
    assert_eq!(names, Opcode::ALL.map(|opcode| format!("{opcode:?}")));
}

/// `execute_with_deferred` is not in the published text, nor is anything that makes a witness.
#[test]
fn what_is_not_published() {
    for (name, text) in zkir_runtime::TEXTS {
        assert!(!text.contains("fn execute_with_deferred") && !text.contains("NormalizationEvent::"), "{name}");
    }
}

/// Limbs of 2^30 and more: the text normalises 40000000, 0 and loses the carry of 10000000000000, 0; 01 refuses both (9).
#[test]
fn limbs_that_are_too_large() {
    for (low, normalized) in [(1 << 30, [0, 1 << 10]), (1 << 52, [0, 0])] {
        assert_eq!(VMState::fresh().normalize_and_write(R1, [low, 0], 20).normalized, normalized);
        assert_eq!(normalize_and_write(&mut VMState::fresh(), R1, [low, 0]), Err(Refusal::Malformed));
    }
}

/// R1 accumulated with limbs 0 and 40000000: the text normalises it, asked in either way; 01 allows no such register (9).
#[test]
fn a_register_of_limbs_that_are_too_large() {
    let held = r1(Held::Accumulated([0, 1 << 30]));
    let [mut first, mut second, mut state] = [held; 3];
    assert!(first.normalize_register(R1, 20, 30).is_some());
    assert!(second.normalize_if_near_overflow(R1, 20, 30).is_some());
    assert_eq!(normalize_register(&mut state, R1), Err(Refusal::Malformed));
    assert_eq!(normalize_if_near_overflow(&mut state, R1), Err(Refusal::Malformed));
    assert_eq!(state, held);
}

/// A whole register of 2^40: the text's observation cuts it to 0; 01 lets normalising do nothing to it.
#[test]
fn an_observed_whole_register() {
    let mut state = r1(Held::Whole(1 << 40));
    assert!(state.normalize_register(R1, 20, 30).is_none());
    assert_eq!(state.read_reg(R1), 1 << 40);
    state.normalize_register_for_observation(R1, 20, 30);
    assert_eq!(state.read_reg(R1), 0);
}

/// Limbs 0 and 2^20: the carry out is carries[1] = 1, while the text's total_carry is 2^20.
#[test]
fn a_total_carry_is_no_carry_out() {
    let answer = VMState::fresh().normalize_and_write(R1, [0, 1 << 20], 20);
    assert_eq!((answer.carries, answer.total_carry()), ([0, 1], 1 << 20));
}
