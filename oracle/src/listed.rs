//! Runs with pending lists lent: what the host call cannot reach.

use zkir_runtime::memory::Memory;
use zkir_runtime::range_check::RangeCheckTracker;
use zkir_spec::Opcode;

use crate::assemble::{b, i, image, r, EBREAK};
use crate::case::{After, Case};
use crate::corners;
use crate::layout::{read_state, write_answer, write_state};
use crate::machine::{Machine, Mode};
use crate::random::Random;
use crate::tally::Tally;

/// A well-formed call with lists of so much room, of which so many entries are in use. All entries are zero before.
#[derive(Clone, Debug, PartialEq, Eq)]
pub struct ListedCase {
    pub case: Case,
    pub room: usize,
    pub count: usize,
}

/// What the run leaves, and the lists: the count, and value, bound and pc of the entries appended.
#[derive(Clone, Debug, PartialEq, Eq)]
pub struct ListedAfter {
    pub after: After,
    pub count: usize,
    pub appended: Vec<[u64; 3]>,
}

impl ListedCase {
    pub fn through_oracle(&self, tally: &mut Tally) -> ListedAfter {
        let Case { mut state, mut memory, mut answer, fuel, mode } = self.case.clone();
        let mode = Mode::from_number(mode).expect("a listed call has a mode");
        let [mut values, mut bounds, mut pcs] = [0; 3].map(|_| vec![0; self.room]);
        let mut machine = Machine {
            state: read_state(&state).expect("a listed call has a well-formed state"),
            memory: Memory::lent(&mut memory),
            lists: RangeCheckTracker::lent(&mut values, &mut bounds, &mut pcs, self.count),
            tally,
        };
        let ran = machine.run(fuel, mode);
        let count = machine.lists.count;
        machine.tally.listed += (count - self.count) as u64;
        write_state(&machine.state, &mut state);
        write_answer(&mut answer, [ran.stop.code(), ran.steps, ran.stop.particular()]);
        let appended = (self.count..count).map(|at| [values[at], bounds[at], pcs[at]]).collect();
        ListedAfter { after: After { code: ran.stop.code(), state, memory, answer }, count, appended }
    }
}

/// Sums and products in a loop, whose notes soon need checks, with lists that are none, large enough, full, or fill up.
pub fn generated(random: &mut Random) -> ListedCase {
    let body = [0; 4].map(|_: u32| {
        let [rd, rs1, rs2] = [0; 3].map(|_: u32| random.below(6) as u32);
        r(random.pick(&[Opcode::Add, Opcode::Mul, Opcode::Mul, Opcode::Sub, Opcode::Mulh]), rd, rs1, rs2)
    });
    let tail = [i(Opcode::Addi, 7, 7, -1), b(Opcode::Bne, 7, 0, -20), EBREAK];
    let program: Vec<u32> = body.into_iter().chain(tail).collect();
    let mut case = Case::new(random.pick(&Mode::BOTH), image(&program, 28), 60);
    for register in 1..6 {
        let held = corners::held(random, case.is_deferred());
        case.set_register(register, held, corners::bound(random));
    }
    case.set_register(7, zkir_runtime::state::Held::Whole(random.between(1, 5) as u64), 3);
    let room = random.pick(&[0, 1, 2, 4, 8, 16, 16, 16]);
    let count = if random.chance(2) { 0 } else { random.below(room as u64 + 1) as usize };
    ListedCase { case, room, count }
}
