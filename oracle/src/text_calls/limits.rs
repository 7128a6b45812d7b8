//! What fits and what just does not.

use zkir_spec::Opcode;

use crate::text::name;

use super::call::Call;

/// A line of an opcode with these operands.
fn line(opcode: Opcode, operands: &[&str]) -> String {
    let name = String::from_utf8_lossy(name(opcode));
    format!("{name} {}\n", operands.join(", "))
}

/// Every opcode with every few operands of every kind.
pub fn operands(visit: &mut dyn FnMut(Call)) {
    const KINDS: [&str; 3] = ["R3", "5", "x"];
    for opcode in Opcode::ALL {
        for count in 0..=4 {
            for number in 0..3usize.pow(count) {
                let operands: Vec<&str> = (0..count).map(|place| KINDS[number / 3usize.pow(place) % 3]).collect();
                let text = format!("Ecall\nx:\n{}", line(opcode, &operands));
                visit(Call::assemble(text.into_bytes()));
            }
        }
    }
}

/// Every opcode with numbers around the limits of every field, as a number and as a sum with a label.
pub fn fields(visit: &mut dyn FnMut(Call)) {
    let limits = [0i64, 63, 1 << 16, -(1 << 16), 1 << 20, -(1 << 20), 1 << 31, 1 << 32, -(1 << 32)];
    for number in limits.iter().flat_map(|limit| limit - 2..=limit + 2) {
        for opcode in Opcode::ALL {
            for registers in [["R1"].as_slice(), &["R1", "R2"]] {
                for immediate in [number.to_string(), format!("x + {}", number - 4), format!("({number}-x)+4")] {
                    let operands = [registers, &[&immediate]].concat();
                    let text = format!("Ecall\nx:\n{}", line(opcode, &operands));
                    visit(Call::assemble(text.into_bytes()));
                }
            }
        }
    }
}

/// Numbers around the limits of 64 bits, alone and in pairs, the sum brought back to where it fits.
pub fn numbers(visit: &mut dyn FnMut(Call)) {
    let limits = [0i128, i64::MAX as i128, i64::MIN as i128, u64::MAX as i128, 10 * i64::MAX as i128, 1 << 100];
    let numbers: Vec<i128> = limits.iter().flat_map(|limit| limit - 2..=limit + 2).collect();
    for &one in &numbers {
        for &other in &numbers {
            for operator in ["+", "-"] {
                let sum = if operator == "+" { one + other } else { one - other };
                for text in [
                    format!("Addi R1,R0,{one}{operator}{other}"),
                    format!("Addi R1,R0,{one}{operator}{other}-{sum}"),
                    format!("Addi R1,R0,({one}{operator}{other})+{}", -sum),
                    format!("Addi R1,R0,{sum}-({one}{operator}{other})"),
                ] {
                    visit(Call::assemble(text.into_bytes()));
                }
            }
        }
    }
}

/// Parentheses of every depth around the most, before and behind others.
pub fn depths(visit: &mut dyn FnMut(Call)) {
    let nested = |inner: &str, depth: usize| format!("{}{inner}{}", "(".repeat(depth), ")".repeat(depth));
    for depth in 0..20 {
        for missing in [0, 1] {
            let closed = nested("1", depth);
            let one = &closed[..closed.len() - missing.min(depth)];
            for sum in [
                one.to_string(),
                format!("{one})"),
                format!("{one}+{}", nested("1", 16)),
                format!("{}-{one}", nested("x", 15)),
                nested(&format!("2 - {one}"), 8),
                nested(&format!("{one} - 2"), 1),
                nested(&format!("{}+{one}", nested("1", 12)), 4),
            ] {
                visit(Call::assemble(format!("x:\nBeq R1, R2, {sum}\n").into_bytes()));
            }
        }
    }
}

/// Labels so far away that they just fit and just do not: forwards, backwards and as an address.
pub fn distances(visit: &mut dyn FnMut(Call)) {
    for (instruction, most) in [("Bne R1, R2", 1 << 14), ("Jal R1", 1 << 18), ("Addi R1, R0", 1 << 14)] {
        for count in most - 2..=most + 2 {
            let between = "Ecall\n".repeat(count);
            visit(Call::assemble(format!("{instruction}, x\n{between}x:\n").into_bytes()));
            visit(Call::assemble(format!("x:\n{between}{instruction}, x\n").into_bytes()));
        }
    }
}

/// Lines of each kind between an instruction and the label that it names: which of them count shows where the label's
/// address, or its distance, just does not fit, since that line is then the first bad one.
pub fn counted_lines(visit: &mut dyn FnMut(Call)) {
    for line in
        ["Ecall", "Nop", "Addi R1, R0, nowhere", "Slli R1, R1, 64", "1", "x y:", ":", "\r", "", "  ", "y:", "x:"]
    {
        for count in 0..=18 {
            let between = format!("{line}\n").repeat(count);
            for instruction in
                ["Slli R1, R1, x", "Slli R1, R1, 60 - x", "Bne R1, R2, x + 65472", "Addi R1, R0, x + 65472"]
            {
                visit(Call::assemble(format!("{instruction}\n{between}x:\n").into_bytes()));
                visit(Call::assemble(format!("x:\n{between}{instruction}\n").into_bytes()));
            }
        }
    }
}

/// As many labels as a table may find hard: in order, backwards and all with one beginning; the last line is bad or not.
pub fn many_labels(visit: &mut dyn FnMut(Call)) {
    for count in [1, 2, 3, 10, 100, 1000] {
        for digits in [1, 4, 9, 20] {
            for last in ["", "l0000:\n", "l1:\n", "Jal R0, nowhere\n"] {
                let name = |number: usize| format!("l{number:0digits$}");
                let uses = |number| format!("Jal R0, {}\nOri R1, R1, {0}\n", name(number));
                let rising: String = (0..count).map(|number| format!("{}:\n{}", name(number), uses(number))).collect();
                let falling: String =
                    (0..count).rev().map(|number| format!("{}:\n{}", name(number), uses(count - 1 - number))).collect();
                visit(Call::assemble((rising + last).into_bytes()));
                visit(Call::assemble((falling + last).into_bytes()));
            }
        }
    }
}
