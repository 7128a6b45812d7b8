//! The language of document 02, A1, rule by rule: what is accepted with its words, and what is refused.

use oracle::text::{assemble, name, named, print};
use oracle::told::Told;
use zkir_spec::Opcode;

/// The words of a text that is accepted.
fn words(text: &str) -> Vec<u32> {
    let mut bytes = vec![0; 4 * text.len()];
    let told = assembled(text.as_bytes(), &mut bytes);
    assert_eq!((told.code, told.particular), (0, 0), "{text:?}");
    let words = bytes[..told.length as usize].chunks(4);
    words.map(|word| u32::from_le_bytes(word.try_into().expect("four bytes"))).collect()
}

fn assembled(text: &[u8], words: &mut [u8]) -> Told {
    assemble(text, words, &mut vec![1; 3 * text.len()])
}

/// The line of a text that is refused for it.
fn bad_line(text: impl AsRef<[u8]>) -> u64 {
    let text = text.as_ref();
    let told = assembled(text, &mut vec![0; 4 * text.len()]);
    assert_eq!((told.code, told.length), (10, 0), "{}", text.escape_ascii());
    told.particular
}

fn all_bad<T: AsRef<[u8]>>(lines: impl IntoIterator<Item = T>) {
    for line in lines {
        assert_eq!(bad_line(line), 1);
    }
}

/// The immediate that a sum comes to.
fn value(sum: &str) -> i32 {
    (words(&format!("Addi R0, R0, {sum}"))[0] as i32) >> 15
}

fn all_bad_sums<T: AsRef<str>>(sums: impl IntoIterator<Item = T>) {
    all_bad(sums.into_iter().map(|sum| format!("Addi R0, R0, {}", sum.as_ref())));
}

#[test]
fn words_of_document_01() {
    let text = "Add R3,R1,R2\nAddi R1,R0,-1\nSw R2,R3,8\nJal R15,-4\n";
    assert_eq!(words(text), [0x00010981, 0xffff8089, 0x00041927, 0xffffe7af]);
    assert_eq!(words("Addi R1, R0, -1\nAddi R2, R1, 1 - 2\nEbreak"), [0xffff8089, 0xffff8909, 50]);
}

#[test]
fn names_are_those_of_the_opcodes() {
    for opcode in Opcode::ALL {
        assert_eq!(name(opcode), format!("{opcode:?}").as_bytes());
        assert_eq!(named(name(opcode)).map(|(found, _)| found), Some(opcode));
    }
    all_bad(["add R1, R2, R3", "ADD R1, R2, R3", "Addx R1, R2, R3", "Ad R1, R2, R3", "Nop", "ebreak", "Ebreak2"]);
}

#[test]
fn lines_end_in_lf_or_cr_lf() {
    for text in
        ["Ecall\nEbreak\n", "Ecall\nEbreak", "Ecall\r\nEbreak\r\n", "Ecall\r\nEbreak", "\n\r\nEcall \r\n\nEbreak\n\n"]
    {
        assert_eq!(words(text), [49, 50]);
    }
    for text in ["", "\n", "\r\n", "   ", " \n  \r\n "] {
        assert!(words(text).is_empty());
    }
    assert_eq!(bad_line("Ecall\nNop\n"), 2);
    assert_eq!(bad_line("\n\r\n \nNop"), 4);
}

#[test]
fn a_cr_elsewhere_is_text() {
    all_bad(["\r", "Ecall\r", "Ecall\r\r\n", "\rEcall\n", "Ecall \r \n", "x:\r", "\r\r\n", "Ecall\rEbreak"]);
    assert_eq!(bad_line("Ecall\r\nEcall\r"), 2);
    assert_eq!(bad_line("\n\r"), 2);
}

#[test]
fn spaces_stand_anywhere_between_parts() {
    let sum = words("Addi R1,R0,3-(1+2)");
    for text in ["Addi R1, R0, 3 - (1 + 2)", "  Addi   R1 ,  R0 ,  3  -  (  1  +  2  )  ", "Addi R1,R0,3 -(1+ 2 ) \r\n"]
    {
        assert_eq!(words(text), sum);
    }
    assert!(words(" x : \n  y:\nz  :").is_empty());
    all_bad([
        "AddiR1,R0,1",
        "Addi",
        "Addi,R1,R0,1",
        "Ad di R1,R0,1",
        "Addi R 1,R0,1",
        "Addi R1,R0,1 2",
        "x y:",
        "x: y",
    ]);
}

#[test]
fn no_other_byte_is_blank() {
    for byte in (0..=255).filter(|byte| !b" \n:".contains(byte)) {
        if !byte.is_ascii_alphanumeric() {
            all_bad([
                [byte].as_slice(),
                &[b"Ecall".as_slice(), &[byte]].concat(),
                &[&[byte], b"x:".as_slice()].concat(),
            ]);
        }
        if !b"+-".contains(&byte) {
            let both = [b"Addi R1, R0, 1".as_slice(), &[byte], b"+ (2)"].concat();
            assert_eq!(byte.is_ascii_digit(), assembled(&both, &mut [0; 4]).code == 0, "{byte}");
        }
    }
}

#[test]
fn operands_are_those_of_the_form() {
    let accepted = ["Add R1, R2, R3", "Addi R1, R2, 3", "Slli R1, R2, 3", "Lw R1, R2, 3", "Sd R1, R2, 3"];
    accepted.into_iter().chain(["Beq R1, R2, 4", "Jal R1, 4", "Jalr R1, R2, 4", "Ecall", "Ebreak"]).for_each(|line| {
        assert_eq!(words(line).len(), 1);
    });
    all_bad(["Add R1, R2", "Add R1, R2, R3, R4", "Add R1, R2, 3", "Addi R1, R2", "Addi 1, R2, 3", "Addi R1, 2, 3"]);
    all_bad(["Addi R1, R2, R3", "Sd R1, 3", "Beq R1, 4", "Jal 4", "Jal R1", "Jal R1, R2, 4", "Jalr R1, 4"]);
    all_bad(["Ecall R1", "Ecall,", "Ebreak 0", "Ebreak Ebreak", "Ecall:Ecall", "Add R1 R2 R3", "Add R1,, R2, R3"]);
    all_bad(["Add ,R1, R2, R3", "Add R1, R2, R3,", "Add R1; R2; R3", "Lw R1, 3(R2)", "Add R1, R2, (R3)"]);
}

#[test]
fn stores_and_branches_have_rs1_first() {
    assert_eq!(words("Sb R1, R2, 3"), [37 | 1 << 7 | 2 << 11 | 3 << 15]);
    assert_eq!(words("Bgeu R1, R2, 3"), [46 | 1 << 7 | 2 << 11 | 3 << 15]);
    assert_eq!(words("Jalr R1, R2, 3"), [48 | 1 << 7 | 2 << 11 | 3 << 15]);
    assert_eq!(words("Jal R1, 3"), [47 | 1 << 7 | 3 << 11]);
    assert_eq!(words("Add R1, R2, R3"), [1 | 1 << 7 | 2 << 11 | 3 << 15]);
}

#[test]
fn registers_are_spelled_exactly() {
    for register in 0..16 {
        assert_eq!(words(&format!("Add R{register}, R0, R0")), [1 | register << 7]);
    }
    let wrong = ["R16", "R00", "R01", "R015", "r1", "R", "R1x", "Rx", "R-1", "R+1", "R1R", "1", "R 1", "R20", "R100"];
    all_bad(wrong.map(|register| format!("Add {register}, R0, R0")));
    all_bad(wrong.map(|register| format!("Jal {register}, 0")));
}

#[test]
fn sums_go_from_the_left() {
    let sums = [("10 - 3 - 2", 5), ("10-(3-2)", 9), ("3 - -5", 8), ("3--5", 8), ("3-+5", -2), ("1 +2", 3), ("1++2", 3)];
    for (sum, number) in sums {
        assert_eq!(value(sum), number, "{sum}");
    }
    for (sum, number) in
        [("+7", 7), ("-7", -7), ("-0", 0), ("007", 7), ("-007", -7), ("((1)+(2))-((3))", 0), ("(-1)-1", -2)]
    {
        assert_eq!(value(sum), number, "{sum}");
    }
}

#[test]
fn a_sign_stands_directly_before_digits() {
    all_bad_sums(["- 5", "+ 5", "--5", "+-5", "-", "+", "1 - - 5", "1 + + 5", "-(1)", "+(1)", "1 - -(1)", "1---1"]);
    all_bad_sums(["-x", "+x", "1 - -x"].map(|sum| format!("{sum}\nx:")));
}

#[test]
fn sums_are_whole() {
    all_bad_sums([
        "", "1 +", "1 -", "+", "1 2", "1 (2)", "(1) 2", "()", "( )", "(", ")", "(1", "1)", "((1)", "(1))", "1 + ()",
    ]);
    all_bad_sums(["1,", ",1", "1 * 2", "0x10", "1_000", "1.5", "5x", "1e3", "'a'", "x", "$1", "1 + 5x\nx:"]);
}

#[test]
fn parentheses_nest_sixteen_deep() {
    let nested = |depth: usize, inner: &str| format!("{}{inner}{}", "(".repeat(depth), ")".repeat(depth));
    assert_eq!(value(&nested(16, "1")), 1);
    assert_eq!(value(&format!("{}-{}", nested(16, "1"), nested(16, "2 - 3"))), 2);
    assert_eq!(value(&nested(8, &format!("1 + {}", nested(8, "1")))), 2);
    all_bad_sums([nested(17, "1"), nested(18, "1"), format!("1 + {}", nested(17, "1"))]);
    all_bad_sums([nested(8, &format!("1 + {}", nested(9, "1"))), format!("{}1", "(".repeat(100_000))]);
}

#[test]
fn numbers_and_partial_sums_fit_64_bits() {
    let (most, least) = (i64::MAX, i64::MIN);
    assert_eq!(value(&format!("{most} - {most}")), 0);
    assert_eq!(value(&format!("{least} + {most} + 1")), 0);
    assert_eq!(value(&format!("{least} - {least}")), 0);
    assert_eq!(value(&format!("-1 - {least} - {most}")), 0);
    assert_eq!(value(&format!("000{most} - (0 + {most})")), 0);
    all_bad_sums([
        "9223372036854775808",
        "-9223372036854775809",
        "99999999999999999999999999",
        "0 - 9223372036854775808",
    ]);
    all_bad_sums([format!("{most} + 1 - {most}"), format!("{least} - 1 + {most}"), format!("0 - {least} - {most}")]);
    all_bad_sums([format!("({most} + 1) - {most}"), format!("0 - ({least} - 1) - {most}"), format!("1 - ({least})")]);
    all_bad_sums([format!("1 + (0 - {least})"), format!("{most} - -1 - {most}")]);
}

#[test]
fn a_label_is_an_address_or_a_distance() {
    assert_eq!(words("Ecall\nx:\nAddi R0, R0, x\nLw R0, R0, x")[1..], [9 | 4 << 15, 35 | 4 << 15]);
    let back = |bits: u32| (-4i32 as u32) << bits;
    assert_eq!(words("Ecall\nx:\nEcall\nBeq R0, R0, x")[2], 41 | back(15));
    assert_eq!(words("Ecall\nx:\nEcall\nJal R0, x")[2], 47 | back(11));
    assert_eq!(words("Ecall\nJalr R0, R0, x\nx:")[1], 48 | 8 << 15);
    assert_eq!(words("Ecall\nBne R0, R0, x\nEcall\nx:\n")[1], 42 | 8 << 15);
    assert_eq!(words("Ecall\nx:\ny:\n"), [49]);
    assert_eq!(words("x:\nBeq R0, R0, x - x + 4")[0], 41 | 4 << 15);
    assert_eq!(words("Ecall\nx:\nBeq R0, R0, (x + end) - 4\nend:")[1], 41);
}

#[test]
fn blank_lines_and_definitions_take_no_address() {
    assert_eq!(words("\n x:\n\ny:\n  \nAddi R0, R0, z\n\nw:\n\nz:\n"), [9 | 4 << 15]);
}

#[test]
fn a_label_may_look_like_anything() {
    assert_eq!(words("Ecall\nR1:\nAdd:\nAddi R1, R1, R1 + Add")[1], 9 | 1 << 7 | 1 << 11 | 8 << 15);
    assert_eq!(words("R16:\nEbreak:\nEbreak\nR00:\nx1y2:\n"), [50]);
    assert!(words("x:\nX:\nxx:\nx1:\nx10:\nabcdefghij:\nabcdefghik:\n").is_empty());
    all_bad(["1x:", "x_1:", "x-1:", ":", " :", "x::", "x :y", "x:Ecall", "Ecall x:", "x.:", "x\t:", "\u{e9}:", "(x):"]);
}

#[test]
fn a_label_is_defined_once() {
    assert_eq!(bad_line("Ecall\nx:\ny:\nx:\ny:\n"), 4);
    assert_eq!(bad_line("x:\nx :\nx:"), 2);
    assert_eq!(bad_line("Addi R0, R0, x"), 1);
    assert_eq!(bad_line("x:\nAddi R0, R0, X"), 2);
    assert_eq!(bad_line("x:\nAddi R0, R0, xx"), 2);
}

#[test]
fn a_label_has_the_address_of_its_first_definition() {
    let between = "Ecall\n".repeat(16);
    assert_eq!(bad_line(format!("Slli R1, R1, x\nx:\n{between}x:\n")), 19);
    assert_eq!(bad_line(format!("{between}x:\nSlli R1, R1, x - 64\nEcall\nx:\n")), 20);
}

#[test]
fn a_bad_line_counts_as_an_instruction() {
    assert_eq!(bad_line(format!("Slli R1, R1, x\n{}x:\n", "Nop\n".repeat(15))), 1);
    assert_eq!(bad_line(format!("Slli R1, R1, x\n{}x:\n", "Nop\n".repeat(14))), 2);
    assert_eq!(bad_line(format!("Slli R1, R1, x\nNop\n{}x:\n", "x:\n".repeat(30))), 2);
}

#[test]
fn immediates_fit_their_fields() {
    let fields = [("Addi R1, R2", 65535), ("Sd R1, R2", 65535), ("Bltu R1, R2", 65535), ("Jalr R1, R2", 65535)];
    for (line, most) in fields.into_iter().chain([("Jal R1", 1048575)]) {
        for number in [most, -most - 1, 1, 2, 3] {
            assert_eq!(words(&format!("{line}, {number}")).len(), 1);
        }
        all_bad([format!("{line}, {}", most + 1), format!("{line}, {}", -most - 2), format!("{line}, {}", 1i64 << 32)]);
    }
    for line in ["Slli R1, R2", "Srli R1, R2", "Srai R1, R2"] {
        assert_eq!(words(&format!("{line}, 63"))[0] >> 15, 63);
        all_bad([format!("{line}, 64"), format!("{line}, -1"), format!("{line}, {}", i64::MIN)]);
    }
}

#[test]
fn the_first_bad_line_is_told() {
    assert_eq!(bad_line("Ecall\n\nNop\nAddi R1, R0, nowhere\nx:\nx:\n"), 3);
    assert_eq!(bad_line("x:\nx:\nNop"), 2);
    assert_eq!(bad_line("Jal R0, nowhere\nx:\nx:"), 1);
}

#[test]
fn refusals_in_their_order() {
    let refused = |text: &str, bytes: usize, numbers: usize| {
        let (mut words, mut labels) = (vec![0xa5; bytes], vec![7; numbers]);
        let told = assemble(text.as_bytes(), &mut words, &mut labels);
        assert!(words.iter().all(|&byte| byte == 0xa5) && labels.iter().all(|&number| number == 0));
        (told.code, told.particular, told.length)
    };
    assert_eq!(refused("x:\nNop\nx:", 0, 5), (9, 0, 0));
    assert_eq!(refused("x:\nNop\nx:", 0, 6), (10, 2, 0));
    assert_eq!(refused("x:\nx:", 100, 3), (9, 0, 0));
    assert_eq!(refused("x:\nEcall\nEcall", 7, 3), (9, 0, 0));
    assert_eq!(refused("x:\nEcall\nEcall", 7, 2), (9, 0, 0));
    assert_eq!(refused("Ecall\nEcall\nEcall\nNop", 7, 9), (10, 4, 0));
}

#[test]
fn what_is_lent_beyond_the_words_stays() {
    let (mut words, mut labels) = ([0xa5; 11], [7; 5]);
    let told = assemble(b"x:\nEcall\nEbreak", &mut words, &mut labels);
    assert_eq!((told, labels), (Told { code: 0, particular: 0, length: 8 }, [0; 5]));
    assert_eq!(words, [49, 0, 0, 0, 50, 0, 0, 0, 0xa5, 0xa5, 0xa5]);
}

fn printed(words: &[u32]) -> String {
    let mut text = vec![0; 22 * words.len()];
    let bytes: Vec<u8> = words.iter().flat_map(|word| word.to_le_bytes()).collect();
    let told = print(&bytes, &mut text);
    assert_eq!((told.code, told.particular), (0, 0));
    String::from_utf8(text[..told.length as usize].to_vec()).expect("a text")
}

#[test]
fn prints() {
    let text = "Addi R1, R0, -1\nSw R2, R3, 8\nJal R15, -4\nEbreak\nAdd R3, R1, R2\nSlli R10, R11, 63\nBgeu R15, R15, -65536\n\
        Ecall\nJalr R0, R15, 65535\nJal R0, -1048576\nCmovnz R15, R15, R15\nLbu R0, R0, 0\n";
    assert_eq!(printed(&words(text)), text);
    assert_eq!(printed(&[]), "");
}

#[test]
fn what_is_not_printed() {
    let refused = |bytes: &[u8], room: usize| {
        let mut text = vec![0xa5; room];
        let told = print(bytes, &mut text);
        assert!(text.iter().all(|&byte| byte == 0xa5) && told.length == 0);
        (told.code, told.particular)
    };
    assert_eq!(refused(&[50, 0, 0], 100), (9, 0));
    assert_eq!(refused(&[0, 0, 0, 0, 0], 0), (9, 0));
    assert_eq!(refused(&[50, 0, 0, 0], 6), (9, 0));
    assert_eq!(refused(&[50, 0, 0, 0, 51, 0, 0, 0, 50, 0, 0, 1], 0), (4, 51));
    assert_eq!(refused(&[50, 0, 0, 1, 0, 0, 0, 0], 100), (5, 0x01000032));
    assert_eq!(refused(&[19, 0, 0x20, 0], 100), (5, 0x00200013));
    assert_eq!(refused(&[1, 0, 8, 0], 100), (5, 0x00080001));
}
