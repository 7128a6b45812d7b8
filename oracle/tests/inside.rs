//! What the host call does not reach: the generated calls meet everything, and wrong functions are found and shrunk.

use oracle::corners::ACCESSES;
use oracle::inside::{
    at_the_ends, generated, Call, Difference, Inside, InsideComparer, Lent, Limbs, Lists, OracleInside, What,
};
use oracle::layout::{number, put_number, record_at};
use oracle::random::Random;

fn compared(subject: &dyn Inside, count: u64) -> InsideComparer<'_> {
    let mut comparer = InsideComparer::new(subject);
    let mut random = Random::seeded(4);
    while comparer.compared < count && comparer.compare(&generated(&mut random)) {}
    comparer
}

#[test]
fn the_oracle_agrees_with_itself_and_meets_everything() {
    let comparer = compared(&OracleInside, 5_000);
    assert!(comparer.difference.is_none() && comparer.compared == 5_000);
    for code in [0, 1, 2, 3, 4, 5, 6, 7, 8, 9, 64, 65] {
        assert!(comparer.codes[code] > 0, "code {code}");
    }
    assert!(comparer.appended > 100);
}

#[test]
fn every_kind_of_call_is_made_on_lists_of_every_kind() {
    let mut random = Random::seeded(4);
    let calls: Vec<Call> = (0..10_000).map(|_| generated(&mut random)).collect();
    let made = |holds: &dyn Fn(&Call) -> bool| assert!(calls.iter().filter(|call| holds(call)).count() > 10);
    made(&|call| matches!(call.what, What::Execute { registers, .. } if registers[0] > 15));
    made(&|call| matches!(call.what, What::Normalize(Limbs { register: 0, .. })));
    made(&|call| matches!(call.what, What::Normalize(Limbs { which: 2, limbs, .. }) if limbs[0] >= 1 << 30));
    for what in [What::Step, What::Run, What::Empty] {
        made(&|call| call.what == what && call.lists.values.is_empty());
        made(&|call| call.what == what && call.lists.count == call.lists.values.len());
        made(&|call| call.what == what && call.lists.count < call.lists.values.len());
    }
    let malformed = |call: &Call| !call.lists.clone().tracked(|tracker| tracker.is_well_formed());
    made(&|call| call.what == What::Empty && malformed(call));
    made(&|call| matches!(call.what, What::Read(_)) && malformed(call));
    made(&|call| call.lists.values.len() != call.lists.pcs.len());
    made(&|call| call.lists.values.len() != call.lists.widths.len());
    made(&|call| call.lists.count > call.lists.values.len());
}

/// Refusal 2 names the first byte that is missing.
#[test]
fn accesses_at_the_ends_of_memory() {
    for (calls, (opcode, size)) in at_the_ends().chunks(6).zip(ACCESSES.repeat(2)) {
        let missing = [15 + size, 16, u64::MAX - size + 1, size - 1, 0].map(|byte| (2, byte));
        let told = calls.iter().map(|call| {
            let left = call.through(&OracleInside);
            (left.code(), number(&left.answers[0], 16))
        });
        assert!(told.eq([(0, 0)].into_iter().chain(missing)), "{opcode:?}");
    }
}

/// The oracle, but for what a fault does to a call of one kind.
struct Faulty {
    after: fn(What, &mut Lent, &mut Lists),
}

impl Inside for Faulty {
    fn execute(&self, lent: &mut Lent, check: &mut [u8], mode: u64, opcode: u8, registers: [u8; 3], imm: u64) {
        OracleInside.execute(lent, check, mode, opcode, registers, imm);
        (self.after)(What::Execute { opcode, registers, imm }, lent, &mut Lists::empty_of(0));
    }

    fn step(&self, lent: &mut Lent, lists: &mut Lists, mode: u64) {
        OracleInside.step(lent, lists, mode);
        (self.after)(What::Step, lent, lists);
    }

    fn run(&self, lent: &mut Lent, lists: &mut Lists, fuel: u64, mode: u64) {
        OracleInside.run(lent, lists, fuel, mode);
        (self.after)(What::Run, lent, lists);
    }

    fn normalize(&self, state: &mut [u8], [before, after, carries]: [&mut [u8]; 3], limbs: &Limbs) {
        OracleInside.normalize(state, [&mut *before, &mut *after, &mut *carries], limbs);
        (self.after)(
            What::Normalize(*limbs),
            &mut Lent { state, memory: &mut [], answer: carries },
            &mut Lists::empty_of(0),
        );
    }

    fn append(&self, answer: &mut [u8], lists: &mut Lists, entry: [u64; 3]) {
        OracleInside.append(answer, lists, entry);
        (self.after)(What::Append(entry), &mut Lent { state: &mut [], memory: &mut [], answer }, lists);
    }

    fn empty(&self, answer: &mut [u8], lists: &mut Lists) {
        OracleInside.empty(answer, lists);
        (self.after)(What::Empty, &mut Lent { state: &mut [], memory: &mut [], answer }, lists);
    }

    fn read(&self, [answer, entry]: [&mut [u8]; 2], lists: &Lists, at: usize) {
        OracleInside.read([&mut *answer, entry], lists, at);
        (self.after)(What::Read(at), &mut Lent { state: &mut [], memory: &mut [], answer }, &mut lists.clone());
    }
}

fn found(after: fn(What, &mut Lent, &mut Lists)) -> Difference {
    compared(&Faulty { after }, 50_000).difference.expect("a wrong function is found")
}

#[test]
fn a_step_that_lists_the_next_pc() {
    let difference = found(|what, _, lists| {
        if let (What::Step, Some(last)) = (what, lists.count.checked_sub(1)) {
            if lists.pcs.get(last) == Some(&0) {
                lists.pcs[last] = 4;
            }
        }
    });
    assert_eq!((difference.call.what, difference.call.lists.values.len()), (What::Step, 1));
}

#[test]
fn a_run_that_clears_the_entry_behind_the_last() {
    let difference = found(|what, lent, lists| {
        if what == What::Run && number(lent.answer, 0) == 64 && lists.count < lists.values.len() {
            let at = lists.count;
            lists.values[at] = 0;
        }
    });
    let Call { case, lists, .. } = &difference.call;
    assert!(case.memory.len() <= 4 && case.fuel <= 1 && lists.values.len() == 1, "{difference}");
}

#[test]
fn a_given_jump_that_halts() {
    let difference = found(|what, lent, _| {
        if matches!(what, What::Execute { opcode: 47, .. }) && number(lent.answer, 0) == 0 {
            lent.state[8] = 1;
        }
    });
    let What::Execute { opcode, registers, imm } = difference.call.what else { panic!("{difference}") };
    assert_eq!((opcode, registers, imm), (47, [0; 3], 0));
}

#[test]
fn a_total_carry_taken_as_the_carry_out() {
    let difference = found(|what, lent, _| {
        if let What::Normalize(_) = what {
            let out = number(lent.answer, 8);
            put_number(lent.answer, 16, out);
        }
    });
    let answered = [0, 8, 16].map(|at| number(&difference.oracle.answers[2], at));
    assert_eq!(answered, [0, 1, 1 << 20], "{difference}");
}

#[test]
fn a_normalised_register_that_loses_its_bound() {
    let difference = found(|what, lent, _| {
        if let What::Normalize(Limbs { which: 0, register, .. }) = what {
            lent.state[record_at(register as usize) + 1] = 0;
        }
    });
    assert!(difference.to_string().contains("kind and bound"), "{difference}");
}

#[test]
fn an_append_that_counts_where_no_list_is_lent() {
    let difference = found(|what, _, lists| {
        if matches!(what, What::Append(_)) && lists.values.is_empty() {
            lists.count = 1;
        }
    });
    assert_eq!(difference.call.lists, Lists::empty_of(0));
}

#[test]
fn malformed_lists_that_are_emptied() {
    let difference = found(|what, lent, lists| {
        if what == What::Empty && number(lent.answer, 0) == 9 {
            lists.count = 0;
        }
    });
    let Lists { values, count, .. } = &difference.call.lists;
    assert!(*count > 0 && values.len() <= 1, "{difference}");
}

#[test]
fn malformed_lists_that_are_read_as_without_an_entry() {
    let difference = found(|what, lent, _| {
        if matches!(what, What::Read(_)) && number(lent.answer, 0) == 9 {
            put_number(lent.answer, 0, 64);
        }
    });
    assert_eq!(difference.oracle.code(), 9, "{difference}");
}
