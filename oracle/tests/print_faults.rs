//! Deliberately wrong printers: each must be found, and its difference shrunk to a few words.

use oracle::random::Random;
use oracle::text::{assemble, print, TextSubject};
use oracle::text_calls::{any, decodable, Call, PrintedWords, TextComparer, What};
use oracle::told::Told;

type Assemble = fn(&[u8], &mut [u8], &mut [u64]) -> Told;
type Print = fn(&[u8], &mut [u8]) -> Told;

struct Faulty {
    assemble: Assemble,
    print: Print,
}

impl TextSubject for Faulty {
    fn assemble(&self, text: &[u8], words: &mut [u8], labels: &mut [u64]) -> Told {
        (self.assemble)(text, words, labels)
    }

    fn print(&self, words: &[u8], text: &mut [u8]) -> Told {
        (self.print)(words, text)
    }
}

/// The words of the smallest call on which this printer is found to be wrong.
fn wrong(print: Print) -> Vec<u8> {
    let subject = Faulty { assemble, print };
    let mut comparer = TextComparer::new(&subject);
    let mut random = Random::seeded(1);
    (0..20_000).all(|_| comparer.compare(&any(&mut random)));
    let difference = comparer.difference.expect("a wrong printer is found");
    println!("{difference}");
    assert_eq!(difference.call.what, What::Print);
    difference.call.given
}

#[test]
fn two_names_swapped() {
    let words = wrong(|words, text| {
        let told = print(words, text);
        let front = &mut text[..told.length as usize];
        while let Some(at) = front.windows(4).position(|part| part == b"Andi") {
            front[at..at + 4].copy_from_slice(b"Addi");
        }
        told
    });
    assert!(words.len() == 4 && words[0] & 0x7f == 13);
}

#[test]
fn a_print_that_writes_before_it_refuses() {
    let words = wrong(|words, text| {
        let told = print(words, text);
        if told.code == 9 && words.chunks_exact(4).remainder().is_empty() {
            let mut room = vec![0; 8 * words.len()];
            print(words, &mut room);
            let length = text.len();
            text.copy_from_slice(&room[..length]);
        }
        told
    });
    assert_eq!(words.len(), 4);
}

#[test]
fn a_print_refused_for_its_room_first() {
    let words = wrong(|words, text| {
        let told = print(words, text);
        let fits = 22 * (words.len() / 4) <= text.len();
        if fits || told.code == 0 {
            return told;
        }
        Told { code: 9, particular: 0, length: 0 }
    });
    assert!(words.len() <= 8);
}

#[test]
fn a_print_refused_at_the_last_word() {
    let words = wrong(|words, text| {
        let told = print(words, text);
        let last = words.chunks(4).map(|word| print(word, &mut [0; 22])).rev().find(|told| told.code != 0);
        last.filter(|_| told.code == 4 || told.code == 5).unwrap_or(told)
    });
    assert_eq!(words.len(), 8);
}

/// The call of the smallest difference that is found among random words, half of which decode.
fn wrong_words(assemble: Assemble, print: Print) -> Call {
    let subject = Faulty { assemble, print };
    let mut printed = PrintedWords::new(&subject);
    let mut random = Random::seeded(1);
    for _ in 0..50_000 {
        printed.compare(random.draw() as u32);
        printed.compare(decodable(&mut random));
    }
    printed.finish();
    printed.difference.expect("a wrong printer is found").call
}

#[test]
fn a_print_without_its_sign() {
    let call = wrong_words(assemble, |words, text| {
        let told = print(words, text);
        if let Some(at) = text[..told.length as usize].iter().position(|&byte| byte == b'-') {
            text[at] = b'+';
        }
        told
    });
    assert_eq!((call.what, call.given.len()), (What::Print, 4));
}

#[test]
fn unused_bits_taken_for_an_unknown_opcode() {
    let call = wrong_words(assemble, |words, text| {
        let told = print(words, text);
        Told { code: if told.code == 5 { 4 } else { told.code }, ..told }
    });
    assert_eq!((call.what, call.given.len()), (What::Print, 4));
}

#[test]
fn a_print_that_is_not_assembled() {
    let all_but_jumps: Assemble = |text, words, labels| match text.windows(4).any(|part| part == b"Jal ") {
        true => Told { code: 10, particular: 1, length: 0 },
        false => assemble(text, words, labels),
    };
    let call = wrong_words(all_but_jumps, print);
    assert!(call.what == What::Assemble && call.given.len() <= 16);
}
