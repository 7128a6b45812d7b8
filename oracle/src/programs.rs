//! What the two programs print for an input.

use zkir_runtime::memory::Memory;
use zkir_runtime::range_check::RangeCheckTracker;
use zkir_runtime::state::VMState;
use zkir_spec::Register;

use crate::machine::{Machine, Mode};
use crate::refusal::{Refusal, Stop};
use crate::tally::Tally;

const MEMORY_BYTES: usize = 65536;
const FUEL: u64 = 1_000_000;

/// "Two programs, plain and deferred, read at most 65,536 bytes from standard input into that much zeroed memory, with
/// fuel 1,000,000, and print one line, then the nonzero registers upwards."
pub fn printed(input: &[u8], mode: Mode) -> String {
    if input.len() > MEMORY_BYTES {
        return first_line(Stop::Refused(Refusal::Malformed), 0, 0);
    }
    let mut memory = vec![0; MEMORY_BYTES];
    memory[..input.len()].copy_from_slice(input);
    let mut machine = Machine {
        state: VMState::fresh(),
        memory: Memory::lent(&mut memory),
        lists: RangeCheckTracker::none(),
        tally: &mut Tally::new(),
    };
    let ran = machine.run(FUEL, mode);
    let mut text = first_line(ran.stop, ran.steps, machine.state.pc);
    for register in 0..16 {
        let value = machine.state.register_states.get(Register(register)).value();
        if value != 0 {
            text += &format!("R{register} {value}\n");
        }
    }
    text
}

fn first_line(stop: Stop, steps: u64, pc: u64) -> String {
    let how = match stop {
        Stop::Fuel => "stop fuel".to_string(),
        Stop::Ebreak => "stop ebreak".to_string(),
        Stop::Ecall => "stop ecall".to_string(),
        Stop::Refused(refusal) => format!("refused {}", refusal.number()),
    };
    format!("{how} steps {steps} pc {pc}\n")
}
