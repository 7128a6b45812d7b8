//! An immediate. "sum = term, then any number of + or - and a term, from the left; term = number | label | ( sum )".

use super::cursor::Cursor;

/// The value of the sum that comes next, and of which each number and each partial sum fits 64 bits. Parentheses may nest
/// as deep as is given. What follows it is left, but for spaces.
pub fn sum(text: &mut Cursor, label: &impl Fn(&[u8]) -> Option<i64>, depth: u32) -> Option<i64> {
    let mut total = term(text, label, depth)?;
    loop {
        text.skip_spaces();
        if text.takes(b'+') {
            total = total.checked_add(term(text, label, depth)?)?;
        } else if text.takes(b'-') {
            total = total.checked_sub(term(text, label, depth)?)?;
        } else {
            return Some(total);
        }
    }
}

fn term(text: &mut Cursor, label: &impl Fn(&[u8]) -> Option<i64>, depth: u32) -> Option<i64> {
    text.skip_spaces();
    match text.peek()? {
        b'(' => {
            text.takes(b'(');
            let value = sum(text, label, depth.checked_sub(1)?)?;
            text.takes(b')').then_some(value)
        }
        b'+' | b'-' | b'0'..=b'9' => number(text),
        b'A'..=b'Z' | b'a'..=b'z' => label(text.take_word()),
        _ => None,
    }
}

/// "an optional sign directly before digits".
fn number(text: &mut Cursor) -> Option<i64> {
    let is_negative = text.takes(b'-');
    if !is_negative {
        text.takes(b'+');
    }
    let digits = text.take_digits();
    if digits.is_empty() {
        return None;
    }
    digits.iter().try_fold(0i64, |value, digit| {
        let (tens, ones) = (value.checked_mul(10)?, (digit - b'0') as i64);
        if is_negative {
            tens.checked_sub(ones)
        } else {
            tens.checked_add(ones)
        }
    })
}
