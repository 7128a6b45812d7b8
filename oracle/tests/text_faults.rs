//! Deliberately wrong assemblers: each must be found, and its difference shrunk to a text that a reader can follow.

use std::collections::HashMap;

use oracle::random::Random;
use oracle::text::{assemble, lines, named, print, Line, TextSubject, NUMBERS_PER_LABEL};
use oracle::text_calls::{any, TextComparer, What, SECTIONS};
use oracle::told::Told;

type Assemble = fn(&[u8], &mut [u8], &mut [u64]) -> Told;

struct Faulty(Assemble);

impl TextSubject for Faulty {
    fn assemble(&self, text: &[u8], words: &mut [u8], labels: &mut [u64]) -> Told {
        (self.0)(text, words, labels)
    }

    fn print(&self, words: &[u8], text: &mut [u8]) -> Told {
        print(words, text)
    }
}

/// The text of the smallest call on which this assembler is found to be wrong.
fn wrong(assemble: Assemble) -> String {
    let subject = Faulty(assemble);
    let mut comparer = TextComparer::new(&subject);
    let mut random = Random::seeded(1);
    (0..20_000).all(|_| comparer.compare(&any(&mut random)));
    for (_, section) in SECTIONS {
        if comparer.difference.is_none() {
            section(&mut |call| {
                comparer.compare(&call);
            });
        }
    }
    let difference = comparer.difference.expect("a wrong assembler is found");
    println!("{difference}");
    assert_eq!(difference.call.what, What::Assemble);
    String::from_utf8(difference.call.given).expect("a text")
}

/// The text with each line, without its end, made another.
fn rewritten(text: &[u8], mut change: impl FnMut(&str) -> String) -> Vec<u8> {
    let mut changed = Vec::new();
    for line in text.split_inclusive(|&byte| byte == b'\n') {
        match std::str::from_utf8(line) {
            Ok(line) => {
                let content = line.trim_end_matches(['\r', '\n']);
                changed.extend(change(content).bytes().chain(line[content.len()..].bytes()));
            }
            Err(_) => changed.extend_from_slice(line),
        }
    }
    changed
}

#[test]
fn depth_seventeen_taken() {
    let text = wrong(|text, words, labels| {
        let flatter = rewritten(text, |line| match line.matches('(').count() {
            17 => line.replacen('(', "", 1).replacen(')', "", 1),
            _ => line.to_string(),
        });
        assemble(&flatter, words, labels)
    });
    assert_eq!((text.matches('(').count(), text.matches(')').count()), (17, 17), "{text}");
    assert!(text.len() <= 52, "{text}");
}

/// An immediate that is a sum of numbers without parentheses, as terms with the operator before each.
fn flat_sum(immediate: &str) -> Option<Vec<(char, i64)>> {
    let mut terms = Vec::new();
    let mut rest = immediate.trim_matches(' ');
    let mut operator = '+';
    loop {
        let signed = rest.starts_with(['+', '-']) as usize;
        let digits = rest[signed..].bytes().take_while(u8::is_ascii_digit).count();
        terms.push((operator, rest[..signed + digits].parse().ok()?));
        rest = rest[signed + digits..].trim_matches(' ');
        operator = match rest.chars().next() {
            None => return Some(terms),
            Some(operator @ ('+' | '-')) => operator,
            Some(_) => return None,
        };
        rest = rest[1..].trim_start_matches(' ');
    }
}

/// The text with each flat sum made the number that this makes of it.
fn with_sums(text: &[u8], value: fn(&[(char, i64)]) -> i64) -> Vec<u8> {
    rewritten(text, |line| {
        let at = line.rfind(',').map_or(line.len(), |at| at + 1);
        let sum = flat_sum(&line[at..]).filter(|terms| terms.len() > 1);
        sum.map_or(line.to_string(), |terms| format!("{}{}", &line[..at], value(&terms)))
    })
}

#[test]
fn a_sum_from_the_right() {
    let text = wrong(|text, words, labels| {
        let from_the_right = with_sums(text, |terms| {
            let (mut total, mut operator) = (0i64, '+');
            for &(before, term) in terms.iter().rev() {
                total = if operator == '+' { term.wrapping_add(total) } else { term.wrapping_sub(total) };
                operator = before;
            }
            total
        });
        assemble(&from_the_right, words, labels)
    });
    assert!(text.matches(['+', '-']).count() <= 3 && text.len() <= 22, "{text}");
}

#[test]
fn an_overflow_that_wraps() {
    let text = wrong(|text, words, labels| {
        let wrapped = with_sums(text, |terms| {
            let step = |total: i64, &(operator, term): &(char, i64)| {
                if operator == '+' {
                    total.wrapping_add(term)
                } else {
                    total.wrapping_sub(term)
                }
            };
            terms.iter().fold(0, step)
        });
        assemble(&wrapped, words, labels)
    });
    assert!(text.contains("92233720368547758") && text.len() <= 64, "{text}");
}

#[test]
fn a_second_definition_taken() {
    let text = wrong(|text, words, labels| {
        let mut seen = Vec::new();
        let without = rewritten(text, |line| match lines(line.as_bytes()).next() {
            Some(Line::Definition(name)) if seen.contains(&name.to_vec()) => String::new(),
            Some(Line::Definition(name)) => {
                seen.push(name.to_vec());
                line.to_string()
            }
            _ => line.to_string(),
        });
        assemble(&without, words, labels)
    });
    assert_eq!(text.matches(':').count(), 2, "{text}");
    assert!(text.len() <= 5, "{text}");
}

/// The address of each label, the last of its definitions counting.
fn addresses(text: &[u8]) -> HashMap<Vec<u8>, usize> {
    let (mut addresses, mut address) = (HashMap::new(), 0);
    for line in lines(text) {
        match line {
            Line::Blank => {}
            Line::Instruction(_) => address += 4,
            Line::Definition(name) => {
                addresses.insert(name.to_vec(), address);
            }
        }
    }
    addresses
}

#[test]
fn a_branch_to_a_labels_address() {
    let text = wrong(|text, words, labels| {
        let addresses = addresses(text);
        let absolute = rewritten(text, |line| {
            let at = line.rfind(',').map_or(line.len(), |at| at + 1);
            match addresses.get(line[at..].trim_matches(' ').as_bytes()) {
                Some(address) if line.contains('B') => format!("{}{address}", &line[..at]),
                _ => line.to_string(),
            }
        });
        assemble(&absolute, words, labels)
    });
    assert!(text.contains('B') && text.len() <= 24, "{text}");
}

/// The assembler's answer, but 10 with this line where it found none before it.
fn bad_at_latest(line: Option<usize>, told: Told) -> Told {
    match line {
        Some(line) if told.code != 10 || told.particular > line as u64 => {
            Told { code: 10, particular: line as u64, length: 0 }
        }
        _ => told,
    }
}

#[test]
fn a_label_by_its_last_definition() {
    let text = wrong(|text, words, labels| {
        let (mut seen, mut repeated, mut number) = (Vec::new(), None, 0);
        for line in lines(text) {
            number += 1;
            if let Line::Definition(name) = line {
                if seen.contains(&name) {
                    repeated.get_or_insert(number);
                }
                seen.push(name);
            }
        }
        if repeated.is_none() || labels.len() < NUMBERS_PER_LABEL * seen.len() {
            return assemble(text, words, labels);
        }
        let last_only = rewritten(text, |line| match lines(line.as_bytes()).next() {
            Some(Line::Definition(name)) => {
                let place = seen.iter().position(|&other| other == name).expect("each was seen");
                let label = seen.remove(place);
                if seen.contains(&label) {
                    String::new()
                } else {
                    line.to_string()
                }
            }
            _ => line.to_string(),
        });
        let told = assemble(&last_only, &mut vec![0; 4 * text.len()], labels);
        bad_at_latest(repeated, told)
    });
    assert!(text.matches(':').count() == 2 && text.len() <= 60, "{text}");
}

#[test]
fn unknown_instructions_that_do_not_count() {
    let text = wrong(|text, words, labels| {
        let is_unknown = |line: &[u8]| {
            let name = line.split(|byte| !byte.is_ascii_alphanumeric()).next().unwrap_or_default();
            named(name).is_none()
        };
        let unknown = lines(text).position(|line| matches!(line, Line::Instruction(line) if is_unknown(line)));
        let without = rewritten(text, |line| match lines(line.as_bytes()).next() {
            Some(Line::Instruction(instruction)) if is_unknown(instruction) => String::new(),
            _ => line.to_string(),
        });
        if unknown.is_none() {
            return assemble(text, words, labels);
        }
        let told = assemble(&without, &mut vec![0; 4 * text.len()], labels);
        if told.code == 9 {
            return told;
        }
        bad_at_latest(unknown.map(|place| place + 1), told)
    });
    assert!(text.len() <= 80, "{text}");
}

/// The lines that are bad: the first is made a good one as long as there is one.
fn bad_lines(text: &[u8]) -> Vec<u64> {
    let mut bad = Vec::new();
    let mut text = text.to_vec();
    loop {
        let Told { code, particular, .. } = assemble(&text, &mut vec![0; 4 * text.len()], &mut vec![0; 3 * text.len()]);
        if code != 10 {
            return bad;
        }
        bad.push(particular);
        let mut lines: Vec<&[u8]> = text.split_inclusive(|&byte| byte == b'\n').collect();
        let line = &mut lines[particular as usize - 1];
        *line = if line.contains(&b':') { b"\n" } else { b"Ebreak\n" };
        text = lines.concat();
    }
}

#[test]
fn the_last_bad_line() {
    let text = wrong(|text, words, labels| {
        let told = assemble(text, words, labels);
        match bad_lines(text).last() {
            Some(&last) if told.code == 10 => Told { particular: last, ..told },
            _ => told,
        }
    });
    assert!(text.lines().count() == 2 && text.len() <= 4, "{text}");
}

#[test]
fn words_written_before_a_later_line_is_bad() {
    let text = wrong(|text, words, labels| {
        let told = assemble(text, words, labels);
        if told.code == 10 {
            let before: Vec<u8> = text
                .split_inclusive(|&byte| byte == b'\n')
                .take(told.particular as usize - 1)
                .flat_map(|line| line.to_vec())
                .collect();
            assemble(&before, words, &mut vec![0; 3 * text.len()]);
        }
        told
    });
    assert!(text.lines().count() == 2 && text.len() <= 10, "{text}");
}

#[test]
fn words_written_where_they_do_not_fit() {
    let text = wrong(|text, words, labels| {
        let mut room = vec![0; 4 * text.len()];
        let told = assemble(text, &mut room, labels);
        let written = words.len().min(told.length as usize);
        words[..written].copy_from_slice(&room[..written]);
        if written < told.length as usize {
            return Told { code: 9, particular: 0, length: 0 };
        }
        told
    });
    assert_eq!(text.len(), 5, "{text}");
}

#[test]
fn bytes_behind_the_words_cleared() {
    let text = wrong(|text, words, labels| {
        let told = assemble(text, words, labels);
        if told.code == 0 {
            words[told.length as usize..].fill(0);
        }
        told
    });
    assert_eq!(text, "");
}

#[test]
fn labels_that_are_not_cleared() {
    assert_eq!(wrong(|text, words, labels| keeping(0, text, words, labels)), "");
    assert!(wrong(|text, words, labels| keeping(10, text, words, labels)).len() <= 1);
    assert!(wrong(|text, words, labels| keeping(9, text, words, labels)).len() <= 5);
}

/// Leaves the labels as they were where the answer is this code.
fn keeping(code: u64, text: &[u8], words: &mut [u8], labels: &mut [u64]) -> Told {
    let before = labels.to_vec();
    let told = assemble(text, words, labels);
    if told.code == code {
        labels.copy_from_slice(&before);
    }
    told
}

#[test]
fn labels_counted_once_that_are_defined_twice() {
    let text = wrong(|text, words, labels| {
        labels.fill(0);
        if labels.len() < NUMBERS_PER_LABEL * addresses(text).len() {
            return Told { code: 9, particular: 0, length: 0 };
        }
        assemble(text, words, &mut vec![0; 3 * text.len()])
    });
    assert!(text.matches(':').count() == 2 && text.len() <= 5, "{text}");
}

#[test]
fn a_bad_line_before_too_few_labels() {
    let text = wrong(|text, words, labels| {
        let told = assemble(text, words, labels);
        match bad_lines(text).first() {
            Some(&first) if told.code == 9 => Told { code: 10, particular: first, length: 0 },
            _ => told,
        }
    });
    assert!(text.matches(':').count() >= 1 && text.len() <= 5, "{text}");
}

#[test]
fn too_little_room_before_a_bad_line() {
    let text = wrong(|text, words, labels| {
        let told = assemble(text, words, labels);
        let count = lines(text).filter(|line| matches!(line, Line::Instruction(_))).count();
        if told.code == 10 && words.len() < 4 * count {
            return Told { code: 9, particular: 0, length: 0 };
        }
        told
    });
    assert!(text.len() <= 1, "{text}");
}

#[test]
fn what_is_taken_too_much() {
    let smallest: [(Assemble, &str, usize); 7] = [
        (|text, words, labels| assemble(&replaced(text, "\t", " "), words, labels), "\t", 1),
        (|text, words, labels| assemble(&replaced(text, "\r", ""), words, labels), "\r", 3),
        (|text, words, labels| assemble(&replaced(text, "R01", "R1"), words, labels), "R01", 14),
        (|text, words, labels| assemble(&replaced(text, "- ", "-"), words, labels), "- ", 14),
        (|text, words, labels| assemble(&replaced(text, "-x", "-1"), words, labels), "-x", 20),
        (|text, words, labels| assemble(&replaced(text, "_", ""), words, labels), "_", 14),
        (|text, words, labels| assemble(&replaced(text, "r", "R"), words, labels), "r", 14),
    ];
    for (wrong_one, part, most) in smallest {
        let text = wrong(wrong_one);
        assert!(text.contains(part) && text.len() <= most, "{text:?}");
    }
}

fn replaced(text: &[u8], from: &str, to: &str) -> Vec<u8> {
    match std::str::from_utf8(text) {
        Ok(text) => text.replace(from, to).into_bytes(),
        Err(_) => text.to_vec(),
    }
}

#[test]
fn labels_told_apart_by_eight_bytes() {
    let text = wrong(|text, words, labels| {
        let cut = rewritten(text, |line| {
            let mut run = 0;
            let keeps = |letter: &char| {
                run = if letter.is_ascii_alphanumeric() { run + 1 } else { 0 };
                run <= 8
            };
            line.chars().filter(keeps).collect()
        });
        assemble(&cut, words, labels)
    });
    assert!(text.len() <= 42, "{text}");
}

#[test]
fn a_shift_by_64() {
    let text = wrong(|text, words, labels| assemble(&replaced(text, "64", "0"), words, labels));
    assert!(text.contains("64") && text.len() <= 16, "{text}");
}

#[test]
fn two_names_swapped() {
    let text = wrong(|text, words, labels| {
        let told = assemble(text, words, labels);
        for word in words[..told.length as usize].chunks_exact_mut(4) {
            word[0] = match word[0] & 0x7f {
                24 | 25 => (word[0] & 0x80) | (49 - (word[0] & 0x7f)),
                _ => word[0],
            };
        }
        told
    });
    assert!(text.starts_with("Sge") && text.len() <= 14, "{text}");
}
