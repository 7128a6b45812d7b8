//! Functions of numbers alone: fields, kinds and encoders of words, values, notes of bits. The published text answers
//! them, a value or a note by executing the instruction that computes it.

mod argument;
mod compare;
mod judged;

pub use argument::Argument;
pub use compare::{compare, Difference};

use zkir_runtime::range_check::RangeCheckTracker;
use zkir_runtime::state::VMState;
use zkir_spec::encoding::*;
use zkir_spec::{encode, Instruction, Opcode, Operands, Register, ValueBound};

use Argument::*;

pub type Answered = fn(&[u64]) -> u64;

/// A function by its name, what it takes, and the oracle's answer. Signed answers are modulo 2^64, true is 1.
pub struct Function {
    pub name: &'static str,
    pub takes: &'static [Argument],
    pub oracle: Answered,
}

const fn of(name: &'static str, takes: &'static [Argument], oracle: Answered) -> Function {
    Function { name, takes, oracle }
}

pub const REFUSED: u64 = u64::MAX - 9;

pub const FIELDS: [Function; 12] = [
    of("extract_opcode", &[Word], |a| extract_opcode(a[0] as u32) as u64),
    of("extract_rd", &[Word], |a| extract_rd(a[0] as u32) as u64),
    of("extract_rs1", &[Word], |a| extract_rs1(a[0] as u32) as u64),
    of("extract_rs2", &[Word], |a| extract_rs2(a[0] as u32) as u64),
    of("extract_funct", &[Word], |a| extract_funct(a[0] as u32) as u64),
    of("extract_imm", &[Word], |a| extract_imm(a[0] as u32) as u64),
    of("extract_offset", &[Word], |a| extract_offset(a[0] as u32) as u64),
    of("extract_stype_rs1", &[Word], |a| extract_stype_rs1(a[0] as u32) as u64),
    of("extract_stype_rs2", &[Word], |a| extract_stype_rs2(a[0] as u32) as u64),
    of("extract_stype_imm", &[Word], |a| extract_stype_imm(a[0] as u32) as u64),
    of("extract_imm_signed", &[Word], |a| extract_imm_signed(a[0] as u32) as u64),
    of("extract_offset_signed", &[Word], |a| extract_offset_signed(a[0] as u32) as u64),
];

pub const KINDS: [Function; 5] = [
    of("is_rtype", &[Word], |a| is_rtype(a[0] as u32) as u64),
    of("is_itype", &[Word], |a| is_itype(a[0] as u32) as u64),
    of("is_stype", &[Word], |a| is_stype(a[0] as u32) as u64),
    of("is_btype", &[Word], |a| is_btype(a[0] as u32) as u64),
    of("is_jtype", &[Word], |a| is_jtype(a[0] as u32) as u64),
];

pub const ENCODERS: [Function; 6] = [
    of("encode_rtype", &[OpcodeNumber, Word, Word, Word, Word], |a| {
        encode_rtype(opcode(a), a[1] as u32, a[2] as u32, a[3] as u32, a[4] as u32) as u64
    }),
    of("encode_itype", &[OpcodeNumber, Word, Word, Word], |a| {
        encode_itype(opcode(a), a[1] as u32, a[2] as u32, a[3] as u32) as u64
    }),
    of("encode_stype", &[OpcodeNumber, Word, Word, Word], |a| {
        encode_stype(opcode(a), a[1] as u32, a[2] as u32, a[3] as u32) as u64
    }),
    of("encode_btype", &[OpcodeNumber, Word, Word, Word], |a| {
        encode_btype(opcode(a), a[1] as u32, a[2] as u32, a[3] as u32) as u64
    }),
    of("encode_jtype", &[OpcodeNumber, Word, Word], |a| encode_jtype(opcode(a), a[1] as u32, a[2] as u32) as u64),
    of("encode", &[OpcodeNumber, Number, Number, Number, Immediate], |a| {
        let registers = [a[1] as u8, a[2] as u8, a[3] as u8];
        encode(&instruction(opcode(a), registers, a[4])).map_or(REFUSED, u64::from)
    }),
];

pub const VALUES: [Function; 21] = [
    of("value_add", &[Value, Value], |a| judged::value(Opcode::Add, a)),
    of("value_sub", &[Value, Value], |a| judged::value(Opcode::Sub, a)),
    of("value_mul", &[Value, Value], |a| judged::value(Opcode::Mul, a)),
    of("value_and", &[Value, Value], |a| judged::value(Opcode::And, a)),
    of("value_or", &[Value, Value], |a| judged::value(Opcode::Or, a)),
    of("value_xor", &[Value, Value], |a| judged::value(Opcode::Xor, a)),
    of("value_shl", &[Value, Amount], |a| judged::shifted(Opcode::Slli, a).0),
    of("value_shr", &[Value, Amount], |a| judged::shifted(Opcode::Srli, a).0),
    of("value_sra", &[Value, Amount], |a| judged::shifted(Opcode::Srai, a).0),
    of("value_slt", &[Value, Value], |a| judged::value(Opcode::Slt, a)),
    of("value_ult", &[Value, Value], |a| judged::value(Opcode::Sltu, a)),
    of("value_mulh", &[Value, Value], |a| judged::value(Opcode::Mulh, a)),
    of("value_div", &[Value, Divisor], |a| judged::value(Opcode::Div, a)),
    of("value_rem", &[Value, Divisor], |a| judged::value(Opcode::Rem, a)),
    of("value_divu", &[Value, Divisor], |a| judged::value(Opcode::Divu, a)),
    of("value_remu", &[Value, Divisor], |a| judged::value(Opcode::Remu, a)),
    of("value_extend_8", &[Byte], |a| judged::loaded(Opcode::Lb, a[0]).0),
    of("value_extend_16", &[Half], |a| judged::loaded(Opcode::Lh, a[0]).0),
    of("value_extend_17", &[Word], |a| extract_imm_signed((a[0] as u32) << IMM_SHIFT) as u64),
    of("value_extend_21", &[Word], |a| extract_offset_signed((a[0] as u32) << OFFSET_SHIFT) as u64),
    of("value_plus", &[Value, Immediate], |a| a[0].wrapping_add(a[1])),
];

pub const BOUNDS: [Function; 13] = [
    of("bound_from_constant", &[Value], |a| ValueBound::from_constant(a[0]).max_bits as u64),
    of("bound_after_add", &[Bound, Bound], |a| judged::note(Opcode::Add, a)),
    of("bound_after_sub", &[Bound, Bound], |a| judged::note(Opcode::Sub, a)),
    of("bound_after_mul", &[Bound, Bound], |a| judged::note(Opcode::Mul, a)),
    of("bound_after_and", &[Bound, Bound], |a| judged::note(Opcode::And, a)),
    of("bound_after_move", &[Bound, Bound], |a| judged::moved(a[0], a[1])),
    of("bound_after_div", &[Bound], |a| judged::note(Opcode::Div, &[a[0], 1])),
    of("bound_after_shl", &[Bound, Amount], |a| judged::shifted(Opcode::Slli, a).1),
    of("bound_after_srl", &[Bound, Amount], |a| judged::shifted(Opcode::Srli, a).1),
    of("bound_after_sra", &[Bound, Amount], |a| judged::shifted(Opcode::Srai, a).1),
    of("bound_after_cmp", &[], |_| judged::note(Opcode::Slt, &[64, 64])),
    of("bound_after_load", &[Size], |a| judged::loaded(judged::load_of(a[0]), 0).1),
    of("bound_needs_check", &[Bound], |a| {
        RangeCheckTracker::none().needs_check(&ValueBound::computed(a[0] as u32)) as u64
    }),
];

pub const LIMBS: [Function; 1] =
    [of("would_overflow", &[Value, Value], |a| VMState::would_overflow([a[0], a[1]], 30) as u64)];

/// All of them, in the order in which they are compared.
pub fn functions() -> impl Iterator<Item = &'static Function> {
    FIELDS.iter().chain(&KINDS).chain(&ENCODERS).chain(&VALUES).chain(&BOUNDS).chain(&LIMBS)
}

/// The archive's function of a name where they are linked, else the oracle's.
pub fn subject(function: &Function) -> Answered {
    #[cfg(exports)]
    return crate::exported::function(function.name).expect("the crate exports each of them");
    #[cfg(not(exports))]
    return function.oracle;
}

fn opcode(arguments: &[u64]) -> Opcode {
    Opcode::from_u8(arguments[0] as u8).expect("a number from 1 to 50")
}

/// The instruction of an opcode, of the registers at bits 7, 11 and 15 of its word and of the immediate, as far as it
/// has them.
pub fn instruction(opcode: Opcode, registers: [u8; 3], imm: u64) -> Instruction {
    let [a, b, c] = registers.map(Register);
    let signed = imm as i64;
    let shapes = [
        Operands::R { rd: a, rs1: b, rs2: c },
        Operands::I { rd: a, rs1: b, imm: signed },
        Operands::Shift { rd: a, rs1: b, shamt: imm },
        Operands::S { rs1: a, rs2: b, imm: signed },
        Operands::B { rs1: a, rs2: b, offset: signed },
        Operands::J { rd: a, offset: signed },
        Operands::Alone,
    ];
    let built = shapes.into_iter().find_map(|operands| Instruction::from_parts(opcode, operands));
    built.expect("an opcode has operands of one shape")
}
