//! The print of words, that it is assembled to the same words, and what is lent to the call.
#![cfg(feature = "text")]

mod common;

use common::{i, j, Random, ADDI, EBREAK, JAL};
use yokeglimmer::raw::{self, Told};
use yokeglimmer::{assemble, print, Refusal, PRINTED_BYTES};

const WORDS: u64 = 200_000;

#[test]
fn printed_and_assembled_words_are_the_same() {
    let mut random = Random(8);
    let drawn: Vec<u32> =
        (0..WORDS).map(|_| random.draw() as u32 >> [0, 11, 13, 25][random.below(4) as usize]).collect();
    let words: Vec<u32> = drawn.into_iter().filter(|&word| print(&[word]).is_ok()).collect();
    assert!(words.len() > 40_000, "{} words are instructions", words.len());
    for some in words.chunks(1000) {
        let text = print(some).unwrap_or_else(|bad| panic!("{bad}"));
        assert_eq!(assemble(&text), Ok(some.to_vec()));
        assert_eq!((text.lines().count(), text.ends_with('\n')), (some.len(), true));
    }
}

/// Every opcode with all registers R15 and the least number, as far as it has them.
#[test]
fn the_longest_line() {
    let words =
        (1..=50).flat_map(|opcode| [opcode | 0x7ff80, opcode | 0x7f80 | 1 << 31, opcode | 0x780 | 1 << 31, opcode]);
    let longest = words.filter_map(|word| print(&[word]).ok()).map(|text| text.len()).max();
    assert_eq!(longest, Some(PRINTED_BYTES));
}

#[test]
fn the_largest_and_the_least_numbers() {
    let words =
        [i(ADDI, 15, 15, -65536), i(ADDI, 0, 0, 65535), j(JAL, 15, -1048576), j(JAL, 0, 1048575), 19 | 63 << 15];
    let text = "Addi R15, R15, -65536\nAddi R0, R0, 65535\nJal R15, -1048576\nJal R0, 1048575\nSlli R0, R0, 63\n";
    assert_eq!(print(&words), Ok(text.to_string()));
    assert_eq!(print(&[]), Ok(String::new()));
}

#[test]
fn the_first_word_that_is_no_instruction() {
    let (shift, call) = (19 | 64 << 15, 49 | 1 << 7);
    for (word, refusal) in [
        (0, Refusal::BadOpcode { word: 0 }),
        (0xffff_ffff, Refusal::BadOpcode { word: 0xffff_ffff }),
        (shift, Refusal::UnusedBits { word: shift }),
        (call, Refusal::UnusedBits { word: call }),
    ] {
        let bad = print(&[EBREAK, EBREAK, word, word, 51]).expect_err("no instruction");
        assert_eq!((bad.refusal, bad.address), (refusal, 8));
        assert_eq!(bad.to_string(), format!("{refusal} at address 8"));
        assert_eq!(std::error::Error::source(&bad).expect("the refusal").to_string(), refusal.to_string());
    }
}

fn told(code: u64, particular: u64, length: u64) -> Told {
    Told { code, particular, length }
}

#[test]
fn what_is_lent_and_left() {
    for length in 7..10 {
        let mut text = vec![0xa5; length];
        assert_eq!(raw::print(&[0x32, 0, 0, 0], &mut text), told(0, 0, 7));
        assert_eq!((&text[..7], &text[7..]), (&b"Ebreak\n"[..], &vec![0xa5; length - 7][..]));
    }
    assert_eq!(raw::print(&[], &mut []), told(0, 0, 0));
}

#[test]
fn refusals_and_their_order() {
    let refused = |words: &[u8], room, expected: Told| {
        let mut text = vec![0xa5; room];
        assert_eq!(raw::print(words, &mut text), expected);
        assert_eq!(text, vec![0xa5; room], "nothing is written");
    };
    for room in [0, 6] {
        refused(&[0x32, 0, 0, 0], room, told(9, 0, 0));
        refused(&[0x32, 0, 0, 0, 0x33, 1, 0, 0], room, told(4, 0x133, 0));
        refused(&[0xb2, 0, 0, 0, 0x33, 1, 0, 0], room, told(5, 0xb2, 0));
    }
    for length in [1, 2, 3, 5, 7] {
        refused(&vec![0xff; length], 100, told(9, 0, 0));
    }
}
