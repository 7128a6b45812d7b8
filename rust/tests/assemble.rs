//! Texts and their words: what is a program, what labels and sums mean, and what is lent to the call.
#![cfg(feature = "text")]

mod common;

use common::{i, j, r, ADD, ADDI, EBREAK, ECALL, JAL, LW, SLLI, SW};
use yokeglimmer::raw::{self, Told};
use yokeglimmer::{assemble, Mistake, Refusal};

const BEQ: u32 = 41;

fn words(text: &str) -> Vec<u32> {
    assemble(text).unwrap_or_else(|bad| panic!("{bad}"))
}

/// The immediate that an Addi gets from a sum.
fn value(sum: &str) -> i32 {
    words(&format!("Addi R1, R0, {sum}"))[0] as i32 >> 15
}

/// The mistake, its line and its column.
fn mistake(text: &str) -> (Mistake, usize, usize) {
    let bad = assemble(text).expect_err(text);
    (bad.mistake, bad.line, bad.column)
}

#[test]
fn each_form() {
    let text =
        "Add R3, R1, R2\nAddi R1, R0, -1\nSlli R5, R2, 63\nSw R2, R3, 8\nBeq R1, R2, -8\nJal R15, 12\nEcall\nEbreak";
    let beq = i(BEQ, 1, 2, -8);
    let expected =
        [r(ADD, 3, 1, 2), i(ADDI, 1, 0, -1), i(SLLI, 5, 2, 63), i(SW, 2, 3, 8), beq, j(JAL, 15, 12), ECALL, EBREAK];
    assert_eq!(words(text), expected);
}

#[test]
fn lines_and_their_ends() {
    assert_eq!((words(""), words("\n"), words("   \n\r\n  \r\n")), (vec![], vec![], vec![]));
    for text in [
        "Ecall\nEbreak",
        "Ecall\nEbreak\n",
        "Ecall\r\nEbreak\r\n",
        "\n Ecall \n\n  Ebreak  \n\n",
        "a:\nEcall\nb :\n Ebreak",
    ] {
        assert_eq!(words(text), [ECALL, EBREAK], "{text:?}");
    }
    for text in ["Ebreak\r", "Ebreak\r\r\n", "\rEbreak\n", "Ebreak\n\r"] {
        assert!(matches!(mistake(text).0, Mistake::ForeignByte { byte: b'\r' }), "{text:?}");
    }
}

#[test]
fn spaces_between_the_parts() {
    for text in ["Add R3,R1,R2", "Add  R3 , R1 ,R2 ", "   Add R3 ,R1 , R2"] {
        assert_eq!(words(text), [r(ADD, 3, 1, 2)], "{text:?}");
    }
    assert_eq!(words("Addi R1,R0,( 1+(2 -3) )-  4"), [i(ADDI, 1, 0, -4)]);
}

#[test]
fn registers() {
    for n in 0..16 {
        assert_eq!(words(&format!("Add R{n}, R0, R{n}")), [r(ADD, n, 0, n)]);
    }
    for register in ["R16", "R00", "R01", "R1x", "R", "r1", "R-1", "1"] {
        assert_eq!(mistake(&format!("Add R1, {register}, R2")), (Mistake::NoRegister, 1, 9), "{register}");
    }
}

#[test]
fn sums_from_the_left() {
    for (sum, expected) in [("1 - 2 + 3", 2), ("1 - (2 + 3)", -4), ("3 - -5", 8), ("3--5", 8), ("3-5", -2), ("+7", 7)] {
        assert_eq!(value(sum), expected, "{sum}");
    }
    for (sum, expected) in [("-65536", -65536), ("65535", 65535), ("70000 - 70000", 0), ("0007", 7)] {
        assert_eq!(value(sum), expected, "{sum}");
    }
    let (least, largest) = (i64::MIN.to_string(), i64::MAX.to_string());
    assert_eq!(value(&format!("{least} + {largest} + 1")), 0);
    assert_eq!(value(&format!("{largest} - {largest} - 1")), -1);
    for sum in [format!("{largest} + 1 - 1"), format!("{least} - 1 + 1"), format!("0 - {least} + {least}")] {
        assert_eq!(mistake(&format!("Addi R1, R0, {sum}")).0, Mistake::LargeSum, "{sum}");
    }
    for number in ["9223372036854775808", "-9223372036854775809", "99999999999999999999999999999999999999999999"] {
        assert_eq!(mistake(&format!("Addi R1, R0, 0 - {number}")), (Mistake::LargeNumber, 1, 18), "{number}");
    }
}

#[test]
fn sixteen_parentheses_and_no_more() {
    let nested = |depth| format!("{}5{}", "(".repeat(depth), ")".repeat(depth));
    assert_eq!((value(&nested(16)), value(&format!("{0} - {0}", nested(16)))), (5, 0));
    assert_eq!(mistake(&format!("Addi R1, R0, {}", nested(17))), (Mistake::TooDeep, 1, 30));
    assert_eq!(mistake(&format!("Addi R1, R0, {} + {}", nested(16), nested(17))).0, Mistake::TooDeep);
}

#[test]
fn what_labels_mean() {
    let text = "Ecall\nhere:\nBeq R1, R2, here\nBeq R1, R2, there\nJal R1, here - 4\nAddi R1, R0, there\nLw R1, R0, here\nthere:";
    let expected = [ECALL, i(BEQ, 1, 2, 0), i(BEQ, 1, 2, 16), j(JAL, 1, -12), i(ADDI, 1, 0, 24), i(LW, 1, 0, 4)];
    assert_eq!(words(text), expected);
    assert_eq!(words("R1:\nAddi :\nAddi R1, R0, R1\nJal R0, Addi\nA1b2:"), [i(ADDI, 1, 0, 0), j(JAL, 0, -4)]);
    assert_eq!(words("a:\nb:\nEcall\nc:\nAddi R1, R0, a + b + c"), [ECALL, i(ADDI, 1, 0, 4)]);
}

#[test]
fn fields_that_are_too_small() {
    for (text, value) in [("Addi R1, R0, 65536", 65536), ("Sw R1, R0, -65537", -65537), ("Beq R1, R0, 65536", 65536)] {
        assert_eq!(mistake(text).0, Mistake::LargeImmediate { value }, "{text}");
    }
    assert_eq!(
        (words("Jal R0, 1048575"), words("Jal R0, -1048576")),
        (vec![j(JAL, 0, 1048575)], vec![j(JAL, 0, -1048576)])
    );
    assert_eq!(mistake("Jal R0, 1048576").0, Mistake::LargeOffset { value: 1048576 });
    assert_eq!(mistake("Jal R0, -1048577").0, Mistake::LargeOffset { value: -1048577 });
    for value in [-1, 64] {
        assert_eq!(mistake(&format!("Srai R1, R1, {value}")).0, Mistake::LargeAmount { value });
    }
    assert_eq!(
        mistake(&format!("Beq R1, R0, far\n{}far:", "Ebreak\n".repeat(16383))).0,
        Mistake::LargeImmediate { value: 65536 }
    );
    assert_eq!(words(&format!("Beq R1, R0, far\n{}far:", "Ebreak\n".repeat(16382))).len(), 16383);
}

#[test]
fn the_first_bad_line_is_told() {
    assert_eq!(mistake("Ebreak\n\nEcall 5\nEbreak 5\n"), (Mistake::TooMuch, 3, 7));
    assert_eq!(mistake("a:\nAddi R1, R0, b\na:\n"), (Mistake::UnknownLabel, 2, 14));
    assert_eq!(mistake("a:\n a :\na:\n"), (Mistake::DefinedAgain, 2, 2));
    let bad = assemble("Ebreak\r\nEcall 5\r\n").expect_err("too much");
    assert_eq!((bad.text.as_str(), bad.refusal()), ("Ecall 5", Refusal::BadLine { line: 2 }));
}

#[test]
fn what_a_program_of_the_longest_lines_needs() {
    let labels: String = (0..1000).map(|n| format!("{}{n}:\n", "label".repeat(100))).collect();
    let jumps: String = (0..1000).map(|n| format!("Jal R0, {}{n}\n", "label".repeat(100))).collect();
    let expected: Vec<u32> = (0..1000).map(|n| j(JAL, 0, -4 * n)).collect();
    assert_eq!(words(&format!("{labels}{jumps}")), expected);
}

const TEXT: &[u8] = b"loop:\nJal R0, loop\nend:\nEbreak";

fn told(code: u64, particular: u64, length: u64) -> Told {
    Told { code, particular, length }
}

#[test]
fn what_is_lent_and_left() {
    for length in 8..12 {
        let (mut words, mut labels) = (vec![0xa5; length], vec![7; 6 + length % 3]);
        assert_eq!(raw::assemble(TEXT, &mut words, &mut labels), told(0, 0, 8));
        assert_eq!(&words[..8], [0x2f, 0, 0, 0, 0x32, 0, 0, 0]);
        assert!(words[8..].iter().all(|&byte| byte == 0xa5) && labels.iter().all(|&number| number == 0));
    }
    assert_eq!(raw::assemble(b"", &mut [], &mut []), told(0, 0, 0));
}

#[test]
fn refusals_and_their_order() {
    let refused = |text: &[u8], room, numbers, expected: Told| {
        let (mut words, mut labels) = (vec![0xa5; room], vec![7; numbers]);
        assert_eq!(raw::assemble(text, &mut words, &mut labels), expected);
        assert_eq!(
            (words, labels),
            (vec![0xa5; room], vec![0; numbers]),
            "nothing is written, and the labels' room is cleared"
        );
    };
    for room in [0, 7] {
        refused(TEXT, room, 6, told(9, 0, 0));
    }
    for numbers in [0, 3, 5] {
        refused(TEXT, 8, numbers, told(9, 0, 0));
        refused(b"?\na:\nb:", 8, numbers, told(9, 0, 0));
    }
    refused(b"a:\nb:\nEbreak\n?", 0, 6, told(10, 4, 0));
    refused(b"Ebreak\nEbreak\n?\n?", 8, 0, told(10, 3, 0));
}
