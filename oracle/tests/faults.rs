//! Deliberately wrong subjects: each must be found, and its difference shrunk to a call that a reader can follow.

use oracle::case::{After, Case};
use oracle::compare::{Comparer, Difference};
use oracle::corners::ACCESSES;
use oracle::generate;
use oracle::host::oracle_run;
use oracle::layout::{number, put_number, record_at, write_answer};
use oracle::random::Random;
use oracle::subject::{Oracle, Subject};
use oracle::sweep::{Share, LARGE, SMALL};
use zkir_spec::encoding::{
    extract_imm_signed, extract_opcode, extract_rd, extract_rs1, extract_rs2, extract_stype_rs1,
};
use zkir_spec::Opcode;

/// Runs step by step, and gives each step to the fault, which may answer in the oracle's place.
struct Faulty(fn(&Step) -> Option<After>);

/// A call with fuel 1 on a state that is neither malformed nor halted, and what the oracle leaves.
struct Step {
    call: Case,
    right: After,
    word: u32,
}

impl Subject for Faulty {
    fn run(&self, state: &mut [u8], memory: &mut [u8], answer: &mut [u8], fuel: u64, mode: u64) -> u64 {
        let code = oracle_run(state, memory, answer, 0, mode);
        if code != 0 {
            return code;
        }
        for steps in 0..fuel {
            let call = Case { state: state.to_vec(), memory: memory.to_vec(), answer: vec![0; 24], fuel: 1, mode };
            let right = call.through(&Oracle);
            let word = word_at(memory, number(state, 0));
            let step = Step { call, right, word };
            let after = (self.0)(&step).unwrap_or(step.right);
            state.copy_from_slice(&after.state);
            memory.copy_from_slice(&after.memory);
            if after.code != 0 {
                write_answer(answer, [after.code, steps + number(&after.answer, 8), number(&after.answer, 16)]);
                return after.code;
            }
        }
        write_answer(answer, [0, fuel, 0]);
        0
    }
}

/// The word at the pc, or 0 where none can be fetched.
fn word_at(memory: &[u8], pc: u64) -> u32 {
    let part = usize::try_from(pc).ok().and_then(|at| memory.get(at..at.checked_add(4)?));
    part.map_or(0, |part| u32::from_le_bytes(part.try_into().unwrap()))
}

impl Step {
    fn is(&self, opcode: Opcode) -> bool {
        extract_opcode(self.word) == opcode as u32
    }

    fn whole(&self, register: u32) -> u64 {
        number(&self.call.state, record_at(register as usize) + 8)
    }

    /// Of a load or store whose rs1 is whole.
    fn address(&self) -> u64 {
        let stores = (Opcode::Sb as u32..=Opcode::Sd as u32).contains(&extract_opcode(self.word));
        let rs1 = if stores { extract_stype_rs1(self.word) } else { extract_rs1(self.word) };
        self.whole(rs1).wrapping_add(extract_imm_signed(self.word) as u64)
    }

    /// Refusal 2, naming another byte.
    fn lacking(&self, byte: u64) -> Option<After> {
        (self.right.code == 2).then(|| self.but(|after| put_number(&mut after.answer, 16, byte)))?
    }

    /// What the oracle leaves, with rd's number, bound or the pc changed.
    fn but(&self, change: impl FnOnce(&mut After)) -> Option<After> {
        let mut after = self.right.clone();
        change(&mut after);
        Some(after)
    }

    fn rd_value(&self, value: u64) -> Option<After> {
        let rd = extract_rd(self.word) as usize;
        (rd != 0 && self.right.code == 0)
            .then(|| self.but(|after| put_number(&mut after.state, record_at(rd) + 8, value)))?
    }
}

fn found(name: &str, subject: &dyn Subject) -> Difference {
    let mut comparer = Comparer::new(subject);
    for ((_, section), one_in) in SMALL.into_iter().map(|s| (s, 1)).chain(LARGE.into_iter().map(|s| (s, 200))) {
        section(&mut Share::one_in(one_in, 1), &mut |case| {
            comparer.compare(&case);
        });
    }
    let mut random = Random::seeded(1);
    (0..20_000).any(|_| !comparer.compare(&generate::any(&mut random)));
    let difference = comparer.difference.unwrap_or_else(|| panic!("{name} was not found"));
    println!("{name}: {difference}");
    difference
}

/// Finds the fault and tests that the call shown has one step at most, little memory and few numbers.
fn caught(name: &str, fault: fn(&Step) -> Option<After>) {
    small(name, &found(name, &Faulty(fault)), 16);
}

fn small(name: &str, difference: &Difference, most_memory: usize) {
    let Case { state, memory, fuel, .. } = &difference.case;
    let numbers = state.chunks(8).filter(|number| number.iter().any(|&byte| byte != 0)).count();
    assert!(*fuel <= 1 && memory.len() <= most_memory && numbers <= 5, "{name} is not small: {difference}");
}

#[test]
fn the_oracle_agrees_with_itself() {
    let mut comparer = Comparer::new(&Oracle);
    let mut random = Random::seeded(7);
    assert!((0..5_000).all(|_| comparer.compare(&generate::any(&mut random))));
    assert_eq!(comparer.compared, 5_000);
}

#[test]
fn store_registers_swapped() {
    caught("a store's rs1 at bits 11-14", |step| {
        if !(37..=40).contains(&extract_opcode(step.word)) {
            return None;
        }
        let swapped = step.word & !0x7f80 | extract_rs1(step.word) << 7 | extract_rd(step.word) << 11;
        let at = number(&step.call.state, 0) as usize;
        let mut call = step.call.clone();
        call.memory[at..at + 4].copy_from_slice(&swapped.to_le_bytes());
        let mut after = call.through(&Oracle);
        if after.memory[at..at + 4] == swapped.to_le_bytes() {
            after.memory[at..at + 4].copy_from_slice(&step.word.to_le_bytes());
        }
        Some(after)
    });
}

#[test]
fn division_by_bit_39() {
    caught("2^40-8 read as negative in Div", |step| {
        let signed = |register| (step.whole(register) << 24) as i64 >> 24;
        let (a, b) = (signed(extract_rs1(step.word)), signed(extract_rs2(step.word)));
        (step.is(Opcode::Div) && step.call.mode == 0 && b != 0).then(|| step.rd_value(a.wrapping_div(b) as u64))?
    });
}

#[test]
fn return_address_first() {
    caught("Jalr's return address written before its target is computed", |step| {
        let rd = extract_rd(step.word);
        if !step.is(Opcode::Jalr) || rd == 0 || rd != extract_rs1(step.word) {
            return None;
        }
        let back = number(&step.call.state, 0) + 4;
        let target = back.wrapping_add(extract_imm_signed(step.word) as u64) & !1;
        step.but(|after| put_number(&mut after.state, 0, target))
    });
}

#[test]
fn product_of_64_bits() {
    caught("Mulh of a product cut to 64 bits", |step| {
        let product = step.whole(extract_rs1(step.word)).wrapping_mul(step.whole(extract_rs2(step.word)));
        (step.is(Opcode::Mulh) && step.call.mode == 0).then(|| step.rd_value(product >> 40))?
    });
}

#[test]
fn carry_lost() {
    caught("normalising without the low limb's carry", |step| {
        let was = |register: usize| step.call.state[record_at(register)] == 1;
        let is = |register: usize| step.right.state[record_at(register)] == 1;
        let normalised =
            |&register: &usize| register != extract_rd(step.word) as usize && was(register) && !is(register);
        let register = (1..16).find(normalised)?;
        let at = record_at(register);
        let high = number(&step.call.state, at + 16) % (1 << 20);
        let low = number(&step.call.state, at + 8) % (1 << 20);
        step.but(|after| put_number(&mut after.state, at + 8, low + (high << 20)))
    });
}

#[test]
fn refused_step_keeps_normalised_sources() {
    caught("a refused step that leaves its sources normalised", |step| {
        let mut other = step.call.clone();
        let observing = 11 | step.word & 0x7f800; // Or R0, rs1, rs2
        let at = number(&step.call.state, 0) as usize;
        if step.right.code != 1 {
            return None;
        }
        other.memory[at..at + 4].copy_from_slice(&observing.to_le_bytes());
        let mut settled = other.through(&Oracle).state;
        put_number(&mut settled, 0, at as u64);
        step.but(|after| after.state = settled)
    });
}

#[test]
fn ebreak_moves_on() {
    caught("Ebreak that moves the pc", |step| {
        (step.right.code == 64).then(|| {
            step.but(|after| {
                let pc = number(&after.state, 0);
                put_number(&mut after.state, 0, pc + 4);
            })
        })?
    });
}

#[test]
fn note_of_sra() {
    caught("Sra that notes 39 bits for 40", |step| {
        let rd = extract_rd(step.word) as usize;
        let noted = step.right.state[record_at(rd) + 1];
        (step.is(Opcode::Sra) && noted == 40).then(|| step.but(|after| after.state[record_at(rd) + 1] = 39))?
    });
}

#[test]
fn range_before_alignment() {
    caught("refusal 2 where 3 comes first", |step| {
        let address = number(&step.right.answer, 16);
        let beyond = step.right.code == 3 && address >= step.call.memory.len() as u64;
        beyond.then(|| {
            step.but(|after| {
                after.code = 2;
                put_number(&mut after.answer, 0, 2);
            })
        })?
    });
}

#[test]
fn another_byte_than_the_first_missing() {
    caught("refusal 2 that names the address", |step| step.lacking(step.address()));
    caught("refusal 2 that names the memory's length", |step| step.lacking(step.call.memory.len() as u64));
    caught("refusal 2 that names the last byte", |step| {
        let (_, size) = ACCESSES.into_iter().find(|&(opcode, _)| step.is(opcode))?;
        step.lacking(step.address().wrapping_add(size - 1))
    });
    let name = "refusal 2 that is one too high at the memory's end";
    let fault = Faulty(|step| {
        let end = step.call.memory.len() as u64;
        (step.address() == end).then(|| step.lacking(end + 1))?
    });
    small(name, &found(name, &fault), 64); // to cut the memory would hide it
}

#[test]
fn refused_step_counted() {
    caught("a refused step that counts", |step| {
        (step.right.code == 4).then(|| step.but(|after| put_number(&mut after.answer, 8, 1)))?
    });
}

#[test]
fn filler_not_tested() {
    struct Lax;
    impl Subject for Lax {
        fn run(&self, state: &mut [u8], memory: &mut [u8], answer: &mut [u8], fuel: u64, mode: u64) -> u64 {
            if state.len() == 400 {
                state[15] = 0;
            }
            oracle_run(state, memory, answer, fuel, mode)
        }
    }
    small("a header byte that is not tested", &found("a header byte that is not tested", &Lax), 0);
}

#[test]
fn short_answer_written() {
    struct Eager;
    impl Subject for Eager {
        fn run(&self, state: &mut [u8], memory: &mut [u8], answer: &mut [u8], fuel: u64, mode: u64) -> u64 {
            let code = oracle_run(state, memory, answer, fuel, mode);
            if answer.len() == 8 {
                put_number(answer, 0, code);
            }
            code
        }
    }
    small("an answer of 8 bytes written", &found("an answer of 8 bytes written", &Eager), 0);
}
