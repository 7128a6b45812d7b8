//! The functions that archives of the crates `singles` and `exports` have beside `zkir_run`, as those declare them. All are
//! total: any numbers and any slices are theirs to answer, so that calling them is safe.

use crate::inside::{Inside, Lent, Limbs, Lists};
use crate::layout::{number, write_answer};
use crate::numbers::{Answered, FIELDS, KINDS};
use crate::words::{Decoded, Word, WordSubject};

/// Declares functions of numbers, and lists them by their names without `oracle_`.
macro_rules! numbers {
    ($($name:ident = $symbol:ident($($argument:ident: $type:ty),*) -> $answer:ty;)*) => {
        mod numbers {
            extern "C" {
                $(pub fn $symbol($($argument: $type),*) -> $answer;)*
            }
        }

        pub const NUMBERS: &[(&str, Answered)] = &[$((stringify!($name), |arguments| {
            let mut next = arguments.iter();
            $(let $argument = *next.next().expect("as many arguments as it takes") as $type;)*
            assert!(next.next().is_none(), "more arguments than it takes");
            unsafe { numbers::$symbol($($argument),*) as i64 as u64 }
        }),)*];
    };
}

#[rustfmt::skip]
numbers! {
    extract_opcode = oracle_extract_opcode(word: u32) -> u32;
    extract_rd = oracle_extract_rd(word: u32) -> u32;
    extract_rs1 = oracle_extract_rs1(word: u32) -> u32;
    extract_rs2 = oracle_extract_rs2(word: u32) -> u32;
    extract_funct = oracle_extract_funct(word: u32) -> u32;
    extract_imm = oracle_extract_imm(word: u32) -> u32;
    extract_offset = oracle_extract_offset(word: u32) -> u32;
    extract_stype_rs1 = oracle_extract_stype_rs1(word: u32) -> u32;
    extract_stype_rs2 = oracle_extract_stype_rs2(word: u32) -> u32;
    extract_stype_imm = oracle_extract_stype_imm(word: u32) -> u32;
    extract_imm_signed = oracle_extract_imm_signed(word: u32) -> i32;
    extract_offset_signed = oracle_extract_offset_signed(word: u32) -> i32;
    is_rtype = oracle_is_rtype(word: u32) -> bool;
    is_itype = oracle_is_itype(word: u32) -> bool;
    is_stype = oracle_is_stype(word: u32) -> bool;
    is_btype = oracle_is_btype(word: u32) -> bool;
    is_jtype = oracle_is_jtype(word: u32) -> bool;
    encode_rtype = oracle_encode_rtype(opcode: u32, rd: u32, rs1: u32, rs2: u32, funct: u32) -> u32;
    encode_itype = oracle_encode_itype(opcode: u32, rd: u32, rs1: u32, imm: u32) -> u32;
    encode_stype = oracle_encode_stype(opcode: u32, rs1: u32, rs2: u32, imm: u32) -> u32;
    encode_btype = oracle_encode_btype(opcode: u32, rs1: u32, rs2: u32, offset: u32) -> u32;
    encode_jtype = oracle_encode_jtype(opcode: u32, rd: u32, offset: u32) -> u32;
    encode = oracle_encode(opcode: u8, a: u8, b: u8, c: u8, imm: u64) -> u64;
    value_add = oracle_value_add(a: u64, b: u64) -> u64;
    value_sub = oracle_value_sub(a: u64, b: u64) -> u64;
    value_mul = oracle_value_mul(a: u64, b: u64) -> u64;
    value_and = oracle_value_and(a: u64, b: u64) -> u64;
    value_or = oracle_value_or(a: u64, b: u64) -> u64;
    value_xor = oracle_value_xor(a: u64, b: u64) -> u64;
    value_shl = oracle_value_shl(a: u64, k: u64) -> u64;
    value_shr = oracle_value_shr(a: u64, k: u64) -> u64;
    value_sra = oracle_value_sra(a: u64, k: u64) -> u64;
    value_slt = oracle_value_slt(a: u64, b: u64) -> bool;
    value_ult = oracle_value_ult(a: u64, b: u64) -> bool;
    value_mulh = oracle_value_mulh(a: u64, b: u64) -> u64;
    value_div = oracle_value_div(a: u64, b: u64) -> u64;
    value_rem = oracle_value_rem(a: u64, b: u64) -> u64;
    value_divu = oracle_value_divu(a: u64, b: u64) -> u64;
    value_remu = oracle_value_remu(a: u64, b: u64) -> u64;
    value_extend_8 = oracle_value_extend_8(x: u8) -> u64;
    value_extend_16 = oracle_value_extend_16(x: u16) -> u64;
    value_extend_17 = oracle_value_extend_17(x: u32) -> u64;
    value_extend_21 = oracle_value_extend_21(x: u32) -> u64;
    value_plus = oracle_value_plus(x: u64, y: u64) -> u64;
    bound_from_constant = oracle_bound_from_constant(x: u64) -> u8;
    bound_after_add = oracle_bound_after_add(a: u8, b: u8) -> u8;
    bound_after_sub = oracle_bound_after_sub(a: u8, b: u8) -> u8;
    bound_after_mul = oracle_bound_after_mul(a: u8, b: u8) -> u8;
    bound_after_and = oracle_bound_after_and(a: u8, b: u8) -> u8;
    bound_after_move = oracle_bound_after_move(source: u8, destination: u8) -> u8;
    bound_after_div = oracle_bound_after_div(a: u8) -> u8;
    bound_after_shl = oracle_bound_after_shl(b: u8, k: u64) -> u8;
    bound_after_srl = oracle_bound_after_srl(b: u8, k: u64) -> u8;
    bound_after_sra = oracle_bound_after_sra(b: u8, k: u64) -> u8;
    bound_after_cmp = oracle_bound_after_cmp() -> u8;
    bound_after_load = oracle_bound_after_load(size: u64) -> u8;
    bound_needs_check = oracle_bound_needs_check(b: u8) -> bool;
    would_overflow = oracle_would_overflow(low: u64, high: u64) -> bool;
}

/// A lent slice goes as a pointer and a length.
mod lent {
    type Bytes = *mut u8;
    type Words = *mut u64;

    #[rustfmt::skip]
    extern "C" {
        pub fn oracle_decode(answer: Bytes, answer_length: usize, word: u32);
        pub fn oracle_execute(
            state: Bytes, state_length: usize, memory: Bytes, memory_length: usize, answer: Bytes, answer_length: usize,
            check: Bytes, check_length: usize, mode: u64, opcode: u8, a: u8, b: u8, c: u8, imm: u64,
        );
        pub fn oracle_step(
            state: Bytes, state_length: usize, memory: Bytes, memory_length: usize, answer: Bytes, answer_length: usize,
            values: Words, values_length: usize, widths: Bytes, widths_length: usize, pcs: Words, pcs_length: usize,
            count: usize, mode: u64,
        ) -> usize;
        pub fn oracle_run(
            state: Bytes, state_length: usize, memory: Bytes, memory_length: usize, answer: Bytes, answer_length: usize,
            values: Words, values_length: usize, widths: Bytes, widths_length: usize, pcs: Words, pcs_length: usize,
            count: usize, fuel: u64, mode: u64,
        ) -> usize;
        pub fn oracle_normalize(
            state: Bytes, state_length: usize, before: Bytes, before_length: usize, after: Bytes, after_length: usize,
            carries: Bytes, carries_length: usize, which: u64, register: u8, low: u64, high: u64,
        );
        pub fn oracle_append(
            answer: Bytes, answer_length: usize, values: Words, values_length: usize, widths: Bytes,
            widths_length: usize, pcs: Words, pcs_length: usize, count: usize, value: u64, width: u8, pc: u64,
        );
        pub fn oracle_empty(
            answer: Bytes, answer_length: usize, values: Words, values_length: usize, widths: Bytes,
            widths_length: usize, pcs: Words, pcs_length: usize, count: usize,
        );
        pub fn oracle_read(
            answer: Bytes, answer_length: usize, values: *const u64, values_length: usize, widths: *const u8,
            widths_length: usize, pcs: *const u64, pcs_length: usize, count: usize, at: usize,
        ) -> u64;
    }
}

/// 24 bytes: 0, opcode and registers packed, the immediate; or the refusal's number, 0, its particular.
pub fn decode(answer: &mut [u8], word: u32) {
    unsafe { lent::oracle_decode(answer.as_mut_ptr(), answer.len(), word) }
}

/// The archives that the build was given in ZKIR_EXPORTS.
pub struct Archive;

/// Calls a function of `lent` with slices, then with numbers.
macro_rules! call {
    ($function:ident[$($slice:expr),*]($($number:expr),*)) => {
        unsafe { lent::$function($($slice.as_mut_ptr(), $slice.len(),)* $($number),*) }
    };
}

impl Inside for Archive {
    fn execute(&self, lent: &mut Lent, check: &mut [u8], mode: u64, opcode: u8, [a, b, c]: [u8; 3], imm: u64) {
        call!(oracle_execute[lent.state, lent.memory, lent.answer, check](mode, opcode, a, b, c, imm))
    }

    fn step(&self, lent: &mut Lent, lists: &mut Lists, mode: u64) {
        let Lists { values, widths, pcs, count } = lists;
        *count = call!(oracle_step[lent.state, lent.memory, lent.answer, values, widths, pcs](*count, mode));
    }

    fn run(&self, lent: &mut Lent, lists: &mut Lists, fuel: u64, mode: u64) {
        let Lists { values, widths, pcs, count } = lists;
        *count = call!(oracle_run[lent.state, lent.memory, lent.answer, values, widths, pcs](*count, fuel, mode));
    }

    fn normalize(&self, state: &mut [u8], [before, after, carries]: [&mut [u8]; 3], limbs: &Limbs) {
        let Limbs { which, register, limbs: [low, high] } = *limbs;
        call!(oracle_normalize[state, before, after, carries](which, register, low, high))
    }

    fn append(&self, answer: &mut [u8], lists: &mut Lists, [value, bound, pc]: [u64; 3]) {
        let Lists { values, widths, pcs, count } = lists;
        call!(oracle_append[answer, values, widths, pcs](*count, value, bound as u8, pc));
        recount(answer, count);
    }

    fn empty(&self, answer: &mut [u8], lists: &mut Lists) {
        let Lists { values, widths, pcs, count } = lists;
        call!(oracle_empty[answer, values, widths, pcs](*count));
        recount(answer, count);
    }

    fn read(&self, [answer, entry]: [&mut [u8]; 2], lists: &Lists, at: usize) {
        let Lists { values, widths, pcs, count } = lists;
        let code = unsafe {
            lent::oracle_read(
                entry.as_mut_ptr(),
                entry.len(),
                values.as_ptr(),
                values.len(),
                widths.as_ptr(),
                widths.len(),
                pcs.as_ptr(),
                pcs.len(),
                *count,
                at,
            )
        };
        write_answer(answer, [code, 0, 0]);
    }
}

/// The count that an answer of 0, the count, 0 tells; a refusal leaves it as it was.
fn recount(answer: &[u8], count: &mut usize) {
    if answer.starts_with(&[0; 8]) {
        *count = number(answer, 8) as usize;
    }
}

/// The functions that take a word apart, looked up once.
pub struct ArchiveWords {
    fields: [Answered; 12],
    kinds: [Answered; 5],
    encode: Answered,
}

/// The archive's function of a name.
pub fn function(name: &str) -> Option<Answered> {
    NUMBERS.iter().find(|(known, _)| *known == name).map(|(_, function)| *function)
}

impl ArchiveWords {
    pub fn new() -> Self {
        let named = |name: &str| function(name).expect("the crate exports each of them");
        Self {
            fields: FIELDS.map(|field| named(field.name)),
            kinds: KINDS.map(|kind| named(kind.name)),
            encode: named("encode"),
        }
    }
}

impl Default for ArchiveWords {
    fn default() -> Self {
        Self::new()
    }
}

impl WordSubject for ArchiveWords {
    fn taken_apart(&self, word: u32) -> Word {
        let asked = [word as u64];
        let mut answer = [0xff; 24];
        decode(&mut answer, word);
        let [code, packed, imm] = [0, 8, 16].map(|at| number(&answer, at));
        let byte = |place: u32| packed >> (8 * place) & 0xff;
        let has_rd = self.kinds[2](&asked) == 0 && self.kinds[3](&asked) == 0;
        let registers = if has_rd { [byte(1), byte(2), byte(3)] } else { [0, byte(1), byte(2)] };
        let decoded = match code {
            0 => Decoded::Instruction { opcode: byte(0), registers, imm },
            _ => Decoded::Refused(code),
        };
        Word {
            fields: self.fields.map(|field| field(&asked)),
            kinds: self.kinds.map(|kind| kind(&asked) == 1),
            decoded,
        }
    }

    fn gives_back(&self, word: u32) -> bool {
        let mut answer = [0xff; 24];
        decode(&mut answer, word);
        let packed = number(&answer, 8);
        let byte = |place: u32| packed >> (8 * place) & 0xff;
        (self.encode)(&[byte(0), byte(1), byte(2), byte(3), number(&answer, 16)]) == word as u64
    }
}
