//! One call as a line of hexadecimal numbers, one space apart, without leading zeros:
//!
//! ```text
//! 0 mode fuel S M A            state memory  code steps particular  state' memory'
//! 1 mode fuel S M A room count state memory  code steps particular  state' memory' count' {value bound pc}
//! ```
//!
//! A reader needs no heap: it keeps state, memory and answer in buffers of 408, 1024 and 32 bytes, of which the first S,
//! M and A are lent. `state` and `memory` are a number n and n pairs `at number`, an 8-byte number at 8 * at in a zeroed
//! buffer; the answer is all ff. `state'` and `memory'` are in the same way what the call must change. The answer must
//! hold code, steps, particular where A is 24 and be unchanged where not; all other bytes stay.

use crate::case::{After, Case};
use crate::layout::{number, put_number, write_answer, ANSWER_BYTES};
use crate::listed::{ListedAfter, ListedCase};
use crate::subject::Oracle;
use crate::tally::Tally;

use super::Call;

const STATE_BUFFER: usize = 408;
const MEMORY_BUFFER: usize = 1024;
const ANSWER_BUFFER: usize = 32;

/// A parsed line: the call and what must come of it.
#[derive(Clone, Debug, PartialEq, Eq)]
pub enum Vector {
    Host { case: Case, after: After },
    Listed { case: ListedCase, after: ListedAfter },
}

/// The line of a call, answered by the oracle.
pub fn write(call: &Call) -> String {
    let mut numbers = Vec::new();
    match call {
        Call::Host(case) => {
            push_call(&mut numbers, 0, case);
            push_rest(&mut numbers, case, &case.through(&Oracle));
        }
        Call::Listed(listed) => {
            let ListedAfter { after, count, appended } = listed.through_oracle(&mut Tally::new());
            push_call(&mut numbers, 1, &listed.case);
            numbers.extend([listed.room as u64, listed.count as u64]);
            push_rest(&mut numbers, &listed.case, &after);
            numbers.push(count as u64);
            numbers.extend(appended.iter().flatten());
        }
    }
    let words: Vec<String> = numbers.iter().map(|number| format!("{number:x}")).collect();
    words.join(" ") + "\n"
}

fn push_call(numbers: &mut Vec<u64>, kind: u64, case: &Case) {
    assert!(case.answer.iter().all(|&byte| byte == 0xff), "the answer is all ff before");
    let lengths = [case.state.len(), case.memory.len(), case.answer.len()].map(|length| length as u64);
    numbers.extend([kind, case.mode, case.fuel]);
    numbers.extend(lengths);
}

fn push_rest(numbers: &mut Vec<u64>, case: &Case, after: &After) {
    push_changes(numbers, &[], &case.state, STATE_BUFFER);
    push_changes(numbers, &[], &case.memory, MEMORY_BUFFER);
    let lent_whole = case.answer.len() == ANSWER_BYTES;
    let answered = if lent_whole { [8, 16].map(|at| number(&after.answer, at)) } else { [0, 0] };
    numbers.push(after.code);
    numbers.extend(answered);
    push_changes(numbers, &case.state, &after.state, STATE_BUFFER);
    push_changes(numbers, &case.memory, &after.memory, MEMORY_BUFFER);
}

/// How many 8-byte numbers differ between two contents of a buffer, and which.
fn push_changes(numbers: &mut Vec<u64>, before: &[u8], after: &[u8], buffer: usize) {
    let [before, after] = [before, after].map(|bytes| buffered(bytes, buffer));
    let differing: Vec<usize> =
        (0..buffer / 8).filter(|at| number(&before, 8 * at) != number(&after, 8 * at)).collect();
    numbers.push(differing.len() as u64);
    for at in differing {
        numbers.extend([at as u64, number(&after, 8 * at)]);
    }
}

fn buffered(bytes: &[u8], buffer: usize) -> Vec<u8> {
    assert!(bytes.len() <= buffer, "{} bytes in a buffer of {buffer}", bytes.len());
    let mut filled = bytes.to_vec();
    filled.resize(buffer, 0);
    filled
}

/// The call and the answer of a line; none where it is no such line.
pub fn parse(line: &str) -> Option<Vector> {
    let numbers: Option<Vec<u64>> = line.split(' ').map(|word| u64::from_str_radix(word, 16).ok()).collect();
    let mut numbers = numbers?.into_iter();
    let mut next = || numbers.next();
    let [kind, mode, fuel] = [next()?, next()?, next()?];
    let lengths = [next()? as usize, next()? as usize, next()? as usize];
    let lists = if kind == 1 { [next()? as usize, next()? as usize] } else { [0, 0] };
    let mut state = vec![0; STATE_BUFFER];
    let mut memory = vec![0; MEMORY_BUFFER];
    let mut answer = vec![0xff; ANSWER_BUFFER];
    take_changes(&mut next, &mut state)?;
    take_changes(&mut next, &mut memory)?;
    let lent = |state: &[u8], memory: &[u8], answer: &[u8]| {
        (state[..lengths[0]].to_vec(), memory[..lengths[1]].to_vec(), answer[..lengths[2]].to_vec())
    };
    let before = lent(&state, &memory, &answer);
    let case = Case { state: before.0, memory: before.1, answer: before.2, fuel, mode };
    let answered = [next()?, next()?, next()?];
    take_changes(&mut next, &mut state)?;
    take_changes(&mut next, &mut memory)?;
    if lengths[2] == ANSWER_BYTES {
        write_answer(&mut answer, answered);
    }
    let (state, memory, answer) = lent(&state, &memory, &answer);
    let after = After { code: answered[0], state, memory, answer };
    if kind == 0 {
        return next().is_none().then_some(Vector::Host { case, after });
    }
    let count = next()? as usize;
    let entries = count.checked_sub(lists[1])?;
    let appended = (0..entries).map(|_| Some([next()?, next()?, next()?])).collect::<Option<Vec<_>>>()?;
    let case = ListedCase { case, room: lists[0], count: lists[1] };
    next().is_none().then_some(Vector::Listed { case, after: ListedAfter { after, count, appended } })
}

fn take_changes(next: &mut impl FnMut() -> Option<u64>, buffer: &mut [u8]) -> Option<()> {
    for _ in 0..next()? {
        let at = next()? as usize;
        put_number(buffer, 8 * at, next()?);
    }
    Some(())
}
