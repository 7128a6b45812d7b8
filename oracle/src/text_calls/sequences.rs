//! All sequences of a few parts, most of them wrong.

use super::call::Call;

/// Visits what comes before, then each sequence of at most so many of the parts, then what comes behind.
fn sequences(before: &str, parts: &[&str], most: u32, behind: &str, visit: &mut dyn FnMut(Call)) {
    for length in 0..=most {
        for number in 0..parts.len().pow(length) {
            let mut text = before.to_string();
            let mut left = number;
            for _ in 0..length {
                text += parts[left % parts.len()];
                left /= parts.len();
            }
            text += behind;
            visit(Call::assemble(text.into_bytes()));
        }
    }
}

/// All texts of at most four bytes.
pub fn bytes(visit: &mut dyn FnMut(Call)) {
    let parts = [" ", "\n", "\r", ":", "A", "R", "b", "1", "(", "+", "-", ",", "\t", "\0"];
    sequences("", &parts, 4, "", visit);
}

pub fn lines(visit: &mut dyn FnMut(Call)) {
    let parts = ["x:", "y:", "x", "Ebreak", "Slli R1, R1, x", "Jal R0, y", " ", "\n", "\r\n", "\r"];
    sequences("", &parts, 5, "", visit);
}

pub fn parts_of_a_line(visit: &mut dyn FnMut(Call)) {
    let parts = ["Jal", "Ebreak", "R1", "R16", "R01", "x", ":", ",", " ", "7", "\t"];
    sequences("", &parts, 5, "\nx:", visit);
    sequences("Add R1,R2", &parts, 3, "", visit);
    sequences("Sw R1,", &parts, 4, "", visit);
}

pub fn parts_of_a_sum(visit: &mut dyn FnMut(Call)) {
    let parts = ["1", "-5", "x", "(", ")", "+", "-", " ", "9223372036854775807", ",", "y"];
    sequences("x:Addi R1,R0,", &parts, 2, "", visit);
    sequences("Ecall\nx:\nAddi R1,R0,", &parts, 5, "\n", visit);
    let parts = ["1", "x", "(", ")", "+", "-"];
    sequences("Ecall\nx:\nBeq R1,R0,", &parts, 7, "\n", visit);
}

pub fn registers(visit: &mut dyn FnMut(Call)) {
    let parts = ["R", "r", "0", "1", "5", "6", "9", "x", " ", "-"];
    sequences("Add ", &parts, 4, ",R0,R0", visit);
    sequences("Jal ", &parts, 4, ",0", visit);
    sequences("Add R0,R0,", &parts, 4, "", visit);
}
