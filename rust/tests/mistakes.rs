//! What is said of bad lines: the words of docs/mistakes.txt, and the first mistake from the left.
#![cfg(feature = "text")]

mod common;

use std::fs;

use common::{repository, Random};
use yokeglimmer::{assemble, Mistake};

const EVERY: [Mistake; 19] = [
    Mistake::ForeignByte { byte: b'\t' },
    Mistake::NoName,
    Mistake::NotAlone,
    Mistake::DefinedAgain,
    Mistake::NoInstruction,
    Mistake::NoOperand,
    Mistake::NoRegister,
    Mistake::NoComma,
    Mistake::NoTerm,
    Mistake::LoneSign,
    Mistake::LargeNumber,
    Mistake::UnknownLabel,
    Mistake::TooDeep,
    Mistake::NotClosed,
    Mistake::LargeSum,
    Mistake::TooMuch,
    Mistake::LargeImmediate { value: 65536 },
    Mistake::LargeOffset { value: 1048576 },
    Mistake::LargeAmount { value: 64 },
];

#[test]
fn each_mistake_has_the_number_the_name_and_the_words_of_the_table() {
    let text = fs::read_to_string(repository("docs/mistakes.txt")).expect("docs/mistakes.txt is there");
    let rows: Vec<Vec<&str>> =
        text.lines().filter(|line| !line.starts_with('#')).map(|line| line.split_whitespace().collect()).collect();
    assert_eq!(rows.len(), EVERY.len());
    for (row, mistake) in rows.iter().zip(EVERY) {
        assert_eq!((row[0], row[2..].join(" ")), (&*mistake.number().to_string(), mistake.to_string()));
        assert!(format!("{mistake:?}").starts_with(row[1]), "{mistake:?} is {}", row[1]);
    }
}

/// What stands in parentheses at the end of what is said: the column, and what is there.
fn place(text: impl AsRef<[u8]>) -> (u64, String) {
    let bad = assemble(text).expect_err("a bad line");
    let said = bad.to_string();
    let at = said.rfind(" (column ").expect("a column");
    (bad.mistake.number(), said[at + " (column ".len()..said.len() - 1].to_string())
}

#[test]
fn the_first_mistake_from_the_left() {
    for (line, number, at) in [
        ("1loop:", 2, "1: 1loop"),
        ("  (3)", 2, "3: ("),
        ("loop: :", 3, "7: :"),
        ("loop", 5, "1: loop"),
        ("Add", 6, "4: end of line"),
        ("Add ", 6, "5: end of line"),
        ("Add R1", 6, "7: end of line"),
        ("Add R1,", 6, "8: end of line"),
        ("Addi R1, R0, ", 6, "14: end of line"),
        ("Add , R1, R2", 7, "5: ,"),
        ("Add R1,, R2", 7, "8: ,"),
        ("Add R1, R2, 5", 7, "13: 5"),
        ("Addi R1, 5", 7, "10: 5"),
        ("Add R1 R2, R3", 8, "8: R2"),
        ("Jal R1 5", 8, "8: 5"),
        ("Addi R1, R0, )", 9, "14: )"),
        ("Addi R1, R0, ,", 9, "14: ,"),
        ("Addi R1, R0, ()", 9, "15: )"),
        ("Addi R1, R0, 3 + + 4", 10, "18: +"),
        ("Addi R1, R0, - 4", 10, "14: -"),
        ("Addi R1, R0, -(4)", 10, "14: -"),
        ("Addi R1, R0, 3 - -x", 10, "18: -x"),
        ("Addi R1, R0, R2", 12, "14: R2"),
        ("Addi R1, R0, (x", 12, "15: x"),
        ("Addi R1, R0, (3 4)", 14, "17: 4"),
        ("Addi R1, R0, (3, 4)", 14, "16: ,"),
        ("Addi R1, R0, 3)", 16, "15: )"),
        ("Addi R1, R0, 0x10", 16, "15: x10"),
        ("Addi R1, R0, 3 4", 16, "16: 4"),
        ("Ecall 5", 16, "7: 5"),
        ("Ebreak:5", 3, "8: 5"),
        ("Jal R1, 2000000 x", 16, "17: x"),
    ] {
        assert_eq!(place(line), (number, at.to_string()), "{line}");
    }
}

#[test]
fn foreign_bytes_come_first() {
    assert_eq!(place("no such line # 5"), (1, "14: #".to_string()));
    assert_eq!(place("Addi\tR1, R0, 5"), (1, "5: byte 9".to_string()));
    assert_eq!(place("Ebreak\u{a0}"), (1, "7: byte 194".to_string()));
    assert_eq!(place(b"Ebreak\nEbreak \xff\xfe"), (1, "8: byte 255".to_string()));
    assert_eq!(place([0]), (1, "1: byte 0".to_string()));
}

#[test]
fn what_no_terminal_shows_is_escaped() {
    let said = |text| assemble(text).expect_err("a bad line").to_string();
    assert!(said("Addi\tR1").starts_with("line 1: Addi\\tR1: only letters"));
    assert!(said("a\x1b[1m\r").starts_with("line 1: a\\u{1b}[1m\\r: only letters"));
    assert!(said("Ebreak é").starts_with("line 1: Ebreak é: only letters"));
}

const PROGRAM: &str = "start:
 Addi R1, R0, (3 - -5) + end
Lw R2, R1, -8
Srai R3, R2, 63
loop : \r
Add R4, R3, R15
Bne R4, R0, loop - (4 + start)
Jal R15, 1048575
Addi R5, R0, 65535
Addi R5, R0, 9223372036854775807 - 9223372036854775800
Addi R6, R0, ((((((((((((((((1))))))))))))))))
Ecall

end:
Ebreak";

/// Wherever the archive finds a bad line, something is found to be wrong with it (else `assemble` panics).
#[test]
fn every_bad_line_has_a_mistake() {
    let (mut random, mut bad, mut numbers) = (Random(10), 0, [0; 20]);
    for _ in 0..40_000 {
        let mut text = PROGRAM.as_bytes().to_vec();
        for _ in 0..=random.below(3) {
            damage(&mut text, &mut random);
        }
        if let Err(refused) = assemble(&text) {
            bad += 1;
            numbers[refused.mistake.number() as usize] += 1;
        }
    }
    assert!(
        bad > 10_000 && numbers[1..].iter().filter(|&&count| count > 0).count() > 14,
        "{bad} bad texts: {numbers:?}"
    );
}

/// A byte changed, left out or doubled, or a piece of the text elsewhere too.
fn damage(text: &mut Vec<u8>, random: &mut Random) {
    const BYTES: &[u8] = b"R019x:,()+- \n\r\tAE";
    let at = random.below(text.len() as u64) as usize;
    match random.below(5) {
        0 => drop(text.remove(at)),
        1 => text[at] = BYTES[random.below(BYTES.len() as u64) as usize],
        2 => text.insert(at, BYTES[random.below(BYTES.len() as u64) as usize]),
        3 => text[at] = random.draw() as u8,
        _ => {
            let piece: Vec<u8> = text[at..].iter().take(random.below(12) as usize).copied().collect();
            let to = random.below(text.len() as u64) as usize;
            drop(text.splice(to..to, piece));
        }
    }
}
