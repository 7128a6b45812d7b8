//! Document 01's corners, P1 to P12 and those it wants run, asked of the oracle itself.

use oracle::machine::{normalize_and_write, Machine, Mode, Onward};
use oracle::programs::printed;
use oracle::refusal::Refusal;
use oracle::run::Ran;
use oracle::tally::Tally;
use zkir_runtime::memory::Memory;
use zkir_runtime::range_check::RangeCheckTracker;
use zkir_runtime::state::{Held, VMState};
use zkir_spec::encoding::{extract_imm_signed, extract_offset_signed};
use zkir_spec::{encode, Instruction, Register};

const R0: Register = Register(0);
const R1: Register = Register(1);
const R2: Register = Register(2);
const R3: Register = Register(3);
const TOP: u64 = 1 << 40;

/// R3 after an instruction over R1 and R2, the same in both modes.
fn result(instruction: impl Fn(Register, Register, Register) -> Instruction, a: u64, b: u64) -> u64 {
    let [plain, deferred] = Mode::BOTH.map(|mode| {
        let state = given(&instruction(R3, R1, R2), a, b, mode).0.expect("not refused");
        state.register_states.get(R3).value()
    });
    assert_eq!(plain, deferred);
    plain
}

fn given(instruction: &Instruction, a: u64, b: u64, mode: Mode) -> (Result<VMState, Refusal>, u64) {
    let mut state = VMState::fresh();
    state.set_unchecked(R1, Held::Whole(a), 64);
    state.set_unchecked(R2, Held::Whole(b), 64);
    let mut machine =
        Machine { state, memory: Memory::lent(&mut []), lists: RangeCheckTracker::none(), tally: &mut Tally::new() };
    let onward = machine.execute_given(instruction, mode);
    (onward.map(|_| machine.state), machine.state.pc)
}

fn run(program: &[u32], memory_length: usize) -> Ran {
    let mut memory: Vec<u8> = program.iter().flat_map(|word| word.to_le_bytes()).collect();
    memory.resize(memory_length, 0);
    Machine {
        state: VMState::fresh(),
        memory: Memory::lent(&mut memory),
        lists: RangeCheckTracker::none(),
        tally: &mut Tally::new(),
    }
    .run(1, Mode::Plain)
}

fn refused(program: &[u32], memory_length: usize) -> (u64, u64) {
    let ran = run(program, memory_length);
    assert_eq!(ran.steps, 0);
    (ran.stop.code(), ran.stop.particular())
}

#[test]
fn p1_p2_signed_fields() {
    assert_eq!(extract_imm_signed(0x0FFFF << 15), 65535);
    assert_eq!(extract_imm_signed(0x10000 << 15), -65536);
    assert_eq!(extract_offset_signed(0x0FFFFF << 11), 1048575);
    assert_eq!(extract_offset_signed(0x100000 << 11), -1048576);
}

#[test]
fn p3_to_p6_words() {
    assert_eq!(encode(&Instruction::Add { rd: R3, rs1: R1, rs2: R2 }), Ok(0x00010981));
    assert_eq!(encode(&Instruction::Addi { rd: R1, rs1: R0, imm: -1 }), Ok(0xFFFF8089));
    assert_eq!(encode(&Instruction::Sw { rs1: R2, rs2: R3, imm: 8 }), Ok(0x00041927));
    assert_eq!(encode(&Instruction::Jal { rd: Register(15), offset: -4 }), Ok(0xFFFFE7AF));
}

#[test]
fn p7_full_limbs() {
    let mut state = VMState::fresh();
    let full = (1 << 30) - 1;
    let answer = normalize_and_write(&mut state, R1, [full, full]).expect("limbs below 2^30");
    assert_eq!(answer.normalized, [1048575, 1022]);
    assert_eq!(answer.carries, [1023, 1024]);
    assert_eq!(state.read_reg(R1), 1048575 + (1022 << 20));
    assert_eq!(normalize_and_write(&mut state, R1, [full + 1, 0]), Err(Refusal::Malformed));
    let zeros = normalize_and_write(&mut state, R0, [full + 1, u64::MAX]).expect("R0 answers zeros first");
    assert_eq!((zeros.accumulated, zeros.normalized, zeros.carries), ([0, 0], [0, 0], [0, 0]));
}

#[test]
fn p8_p9_products_and_quotients() {
    let mulh = |rd, rs1, rs2| Instruction::Mulh { rd, rs1, rs2 };
    assert_eq!(result(mulh, u64::MAX, u64::MAX), 1099478073344);
    assert_eq!(result(mulh, TOP - 1, TOP - 1), 1099511627774);
    let least = 1 << 63;
    assert_eq!(result(|rd, rs1, rs2| Instruction::Div { rd, rs1, rs2 }, least, u64::MAX), least);
    assert_eq!(result(|rd, rs1, rs2| Instruction::Rem { rd, rs1, rs2 }, least, u64::MAX), 0);
}

#[test]
fn p10_p11_shifts() {
    let sll = |rd, rs1, rs2| Instruction::Sll { rd, rs1, rs2 };
    assert_eq!([39, 40, 64].map(|amount| result(sll, 1, amount)), [549755813888, 0, 1]);
    assert_eq!(result(|rd, rs1, rs2| Instruction::Sra { rd, rs1, rs2 }, 1 << 39, 63), TOP - 1);
}

#[test]
fn p12_comparisons() {
    assert_eq!(result(|rd, rs1, rs2| Instruction::Seq { rd, rs1, rs2 }, u64::MAX, TOP - 1), 0);
    let sltu = |rd, rs1, rs2| Instruction::Sltu { rd, rs1, rs2 };
    assert_eq!((result(sltu, u64::MAX, TOP - 1), result(sltu, TOP - 1, u64::MAX)), (0, 0));
}

#[test]
fn run_only() {
    assert_eq!(refused(&[0], 64), (4, 0));
    let shift_64 = encode(&Instruction::Slli { rd: R1, rs1: R1, shamt: 0 }).unwrap() | 64 << 15;
    assert_eq!(refused(&[shift_64], 64), (5, shift_64 as u64));
    assert_eq!(refused(&[], 3), (7, 0));
    let lw = |imm| encode(&Instruction::Lw { rd: R1, rs1: R0, imm }).unwrap();
    assert_eq!(run(&[lw(60)], 64).steps, 1);
    assert_eq!(refused(&[lw(64)], 64), (2, 64));
    assert_eq!(refused(&[lw(60)], 62), (2, 62), "the first byte that is missing");
    assert_eq!(refused(&[lw(1)], 64), (3, 1));
}

#[test]
fn errors_that_look_right() {
    assert_eq!(result(|rd, rs1, rs2| Instruction::Div { rd, rs1, rs2 }, TOP - 8, 2), (TOP - 8) / 2);
    let jalr = Instruction::Jalr { rd: R1, rs1: R1, imm: 3 };
    let (after, pc) = given(&jalr, 0x100, 0, Mode::Plain);
    assert_eq!((after.unwrap().read_reg(R1), pc), (4, 0x102));
}

#[test]
fn jumps_at_the_top_wrap() {
    for mode in Mode::BOTH {
        let mut state = VMState::fresh();
        state.pc = u64::MAX - 3;
        let mut machine = Machine {
            state,
            memory: Memory::lent(&mut []),
            lists: RangeCheckTracker::none(),
            tally: &mut Tally::new(),
        };
        assert_eq!(machine.execute_given(&Instruction::Jal { rd: R1, offset: 8 }, mode), Ok(Onward::Next));
        assert_eq!((machine.state.read_reg(R1), machine.state.pc), (0, 4));
    }
}

#[test]
fn worked_example() {
    let input = [0x89, 0x80, 0xFF, 0xFF, 0x01, 0x89, 0x00, 0x00, 0x32, 0x00, 0x00, 0x00];
    for mode in Mode::BOTH {
        assert_eq!(printed(&input, mode), "stop ebreak steps 3 pc 8\nR1 1099511627775\nR2 1099511627774\n");
        assert_eq!(printed(&[], mode), "refused 4 steps 0 pc 0\n");
        assert_eq!(printed(&[0; 65537], mode), "refused 9 steps 0 pc 0\n");
    }
}
