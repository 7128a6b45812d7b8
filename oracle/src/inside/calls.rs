use zkir_runtime::range_check::RangeCheckTracker;
use zkir_runtime::state::Held;

use crate::assemble::word;
use crate::case::Case;
use crate::corners;
use crate::generate;
use crate::layout::{number, read_state, ANSWER_BYTES};
use crate::listed;
use crate::numbers::Argument;
use crate::random::Random;
use crate::words::parts;

use super::{Inside, Lent, Limbs};

/// The three lists and their count, well formed or not.
#[derive(Clone, Debug, PartialEq, Eq)]
pub struct Lists {
    pub values: Vec<u64>,
    pub widths: Vec<u8>,
    pub pcs: Vec<u64>,
    pub count: usize,
}

impl Lists {
    pub fn empty_of(room: usize) -> Self {
        Self { values: vec![0; room], widths: vec![0; room], pcs: vec![0; room], count: 0 }
    }

    /// The same as the oracle's, whose bounds are wider numbers.
    pub fn tracked<T>(&mut self, act: impl FnOnce(&mut RangeCheckTracker) -> T) -> T {
        let mut bounds: Vec<u64> = self.widths.iter().map(|&width| width as u64).collect();
        let mut tracker = RangeCheckTracker::lent(&mut self.values, &mut bounds, &mut self.pcs, self.count);
        let answer = act(&mut tracker);
        self.count = tracker.count;
        self.widths = bounds.into_iter().map(|bound| bound as u8).collect();
        answer
    }
}

#[derive(Clone, Debug, PartialEq, Eq)]
pub enum What {
    Execute { opcode: u8, registers: [u8; 3], imm: u64 },
    Step,
    Run,
    Normalize(Limbs),
    Append([u64; 3]),
    Empty,
    Read(usize),
}

/// A call of one of the functions. Its state is well formed; what it has no use for is not looked at.
#[derive(Clone, Debug, PartialEq, Eq)]
pub struct Call {
    pub what: What,
    pub case: Case,
    pub lists: Lists,
}

/// All that a call leaves: everything lent to it.
#[derive(Clone, Debug, PartialEq, Eq)]
pub struct Left {
    pub state: Vec<u8>,
    pub memory: Vec<u8>,
    pub answers: [Vec<u8>; 3],
    pub lists: Lists,
}

impl Left {
    pub fn code(&self) -> u64 {
        number(&self.answers[0], 0)
    }
}

impl Call {
    /// Whether the oracle has an answer.
    pub fn is_answerable(&self) -> bool {
        read_state(&self.case.state).is_some() && self.case.mode <= 1 && self.case.answer.len() == ANSWER_BYTES
    }

    pub fn through(&self, subject: &dyn Inside) -> Left {
        let Case { mut state, mut memory, fuel, mode, .. } = self.case.clone();
        let mut lists = self.lists.clone();
        let mut answers = [0; 3].map(|_| vec![0xff; ANSWER_BYTES]);
        let [first, second, third] = &mut answers;
        let mut lent = Lent { state: &mut state, memory: &mut memory, answer: first };
        match &self.what {
            What::Execute { opcode, registers, imm } => {
                subject.execute(&mut lent, second, mode, *opcode, *registers, *imm)
            }
            What::Step => subject.step(&mut lent, &mut lists, mode),
            What::Run => subject.run(&mut lent, &mut lists, fuel, mode),
            What::Normalize(limbs) => subject.normalize(lent.state, [lent.answer, second, third], limbs),
            What::Append(entry) => subject.append(first, &mut lists, *entry),
            What::Empty => subject.empty(first, &mut lists),
            What::Read(at) => subject.read([first, second], &lists, *at),
        }
        Left { state, memory, answers, lists }
    }
}

/// Each load and store, given, at the ends of memory. A step needs its word there: so no other call comes to the shortest ones.
pub fn at_the_ends() -> Vec<Call> {
    let call = |(mode, opcode, length, address)| {
        let mut case = Case::new(mode, (1..=length as u8).collect(), 0);
        case.set_register(1, Held::Whole(address), 64);
        case.set_register(2, Held::Whole(0xfedc_ba98_7654_3210), 64);
        let (opcode, registers, imm) = parts(word(opcode, [3, 1, 2], 0)).expect("an instruction");
        Call { what: What::Execute { opcode, registers, imm }, case, lists: Lists::empty_of(0) }
    };
    corners::at_the_ends().map(call).collect()
}

/// A call of any of the functions, steps and runs most of all.
pub fn generated(random: &mut Random) -> Call {
    let kind = random.below(16);
    let mut case = well_formed(random);
    let what = match kind {
        0..=3 => given(&mut case, random),
        4..=7 => What::Step,
        8..=11 => What::Run,
        12 | 13 => What::Normalize(limbs(&mut case, random)),
        14 => What::Append([random.draw() >> 24, random.below(65), corners::value(random)]),
        _ if random.chance(3) => What::Empty,
        _ => What::Read(random.below(6) as usize),
    };
    Call { what, case, lists: lists(random) }
}

/// A call of the host that it takes, of the families or with notes that soon need checks.
fn well_formed(random: &mut Random) -> Case {
    loop {
        let case = if random.chance(2) { listed::generated(random).case } else { generate::any(random) };
        let call = Call { what: What::Step, case, lists: Lists::empty_of(0) };
        if call.is_answerable() {
            return call.case;
        }
    }
}

/// The instruction at the pc, or any other, one that the encoder refuses too; at any pc.
fn given(case: &mut Case, random: &mut Random) -> What {
    let pc = number(&case.state, 0) as usize;
    if random.chance(4) {
        case.set_pc(corners::value(random));
    }
    let word = case.memory.get(pc..).and_then(|from| from.first_chunk().copied()).map(u32::from_le_bytes);
    let decoded = word.and_then(parts);
    match decoded {
        Some((opcode, registers, imm)) if !random.chance(4) => What::Execute { opcode, registers, imm },
        _ => What::Execute {
            opcode: Argument::OpcodeNumber.draw(random) as u8,
            registers: [0; 3].map(|_: u8| Argument::Number.draw(random) as u8),
            imm: Argument::Immediate.draw(random),
        },
    }
}

fn limbs(case: &mut Case, random: &mut Random) -> Limbs {
    let register = random.below(16) as u32;
    case.set_register(register, corners::held(random, true), corners::bound(random));
    let limb = |random: &mut Random| if random.chance(4) { corners::value(random) } else { corners::limb(random) };
    Limbs { which: random.below(3), register: register as u8, limbs: [limb(random), limb(random)] }
}

/// Lists that are none, empty, in part used or full, with something in each entry; one in eight malformed.
fn lists(random: &mut Random) -> Lists {
    let room = random.pick(&[0, 1, 2, 4, 4, 8]);
    let numbers = |random: &mut Random| (0..room).map(|_| random.draw() >> random.below(64)).collect::<Vec<u64>>();
    let some = random.below(room as u64 + 1) as usize;
    let count = random.pick(&[0, room, some]);
    let widths = (0..room).map(|_| random.draw() as u8).collect();
    let mut lists = Lists { values: numbers(random), widths, pcs: numbers(random), count };
    match random.below(32) {
        0 => lists.count = room + 1 + random.below(2) as usize,
        1 => lists.values.push(1),
        2 => lists.widths.push(1),
        3 => lists.pcs.push(1),
        _ => {}
    }
    lists
}
