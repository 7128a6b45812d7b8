use crate::random::Random;

use super::generate::label_name;

/// Bytes that mean something in a text, and some that mean nothing.
pub const BYTES: [u8; 26] = *b" \n\r:,+-()019Rr5AaxzZ_.\t\0\x7f\xff";

/// Changes a text once. Some damages are none, as a space more.
pub fn damage(text: &mut Vec<u8>, random: &mut Random) {
    match random.below(8) {
        0..=2 => damage_byte(text, random),
        3 | 4 => damage_lines(text, random),
        5 => {
            let wrong = random.pick(&WRONG);
            insert_line(text, wrong.as_bytes(), random);
        }
        _ => {
            let definition = [label_name(random), b":".to_vec()].concat();
            insert_line(text, &definition, random);
        }
    }
}

const WRONG: [&str; 8] =
    ["Nop", "Add R1, R2", "Addi R1, R0, nowhere", "Jal R16, 0", "x: y:", ":", "Slli R1, R1, 64", "Lw R1, R2, 65536"];

fn damage_byte(text: &mut Vec<u8>, random: &mut Random) {
    let byte = if random.chance(4) { random.draw() as u8 } else { random.pick(&BYTES) };
    let place = random.below(text.len() as u64 + 1) as usize;
    match random.below(3) {
        0 => text.insert(place, byte),
        _ if place == text.len() => {}
        1 => text[place] = byte,
        _ => {
            text.remove(place);
        }
    }
}

/// Two lines swapped, one taken away, or one written a second time.
fn damage_lines(text: &mut Vec<u8>, random: &mut Random) {
    let mut lines: Vec<Vec<u8>> = text.split_inclusive(|&byte| byte == b'\n').map(<[u8]>::to_vec).collect();
    if lines.is_empty() {
        return;
    }
    let [one, other] = [0; 2].map(|_| random.below(lines.len() as u64) as usize);
    match random.below(3) {
        0 => lines.swap(one, other),
        1 => {
            lines.remove(one);
        }
        _ => lines.insert(other, lines[one].clone()),
    }
    *text = lines.concat();
}

fn insert_line(text: &mut Vec<u8>, line: &[u8], random: &mut Random) {
    let mut lines: Vec<&[u8]> = text.split_inclusive(|&byte| byte == b'\n').collect();
    let line = [line, b"\n"].concat();
    lines.insert(random.below(lines.len() as u64 + 1) as usize, &line);
    *text = lines.concat();
}
