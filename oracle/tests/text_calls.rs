//! The calls by which texts are compared meet both sides of the language, and so do the texts that are measured.

use oracle::bench::text_rows;
use oracle::calls::Compared;
use oracle::parallel::Words;
use oracle::random::Random;
use oracle::text::{lines, named, Line, OracleText};
use oracle::text_calls::{any, program, Call, Met, PrintedWords, TextComparer, SECTIONS, SMALL, WHOLE};
use zkir_spec::Opcode;

#[test]
fn generated_calls_meet_everything() {
    let mut comparer = TextComparer::new(&OracleText);
    let mut random = Random::seeded(5);
    assert!((0..10_000).all(|_| comparer.compare(&any(&mut random))));
    let Met { assembled, words, bad_first_lines, bad_later_lines, short_labels, short_words, .. } = comparer.met;
    let Met { printed, unknown_opcodes, unused_bits, odd_lengths, short_texts, .. } = comparer.met;
    assert!(assembled > 4_000 && words > 5 * assembled && bad_later_lines > 1_000, "{:?}", comparer.met);
    for number in [bad_first_lines, short_labels, short_words, printed, odd_lengths, short_texts] {
        assert!(number > 50, "{:?}", comparer.met);
    }
    assert!(unknown_opcodes > 50 && unused_bits > 50, "{:?}", comparer.met);
}

#[test]
fn programs_have_every_instruction_and_are_mostly_right() {
    let mut random = Random::seeded(6);
    let mut met = [0; 51];
    let mut right = 0;
    for _ in 0..500 {
        let call = Call::assemble(program(&mut random));
        let left = call.through(&OracleText);
        right += (left.told.code == 0) as u64;
        left.output[..left.told.length as usize].chunks(4).for_each(|word| met[word[0] as usize & 0x7f] += 1);
    }
    assert!(right > 400, "{right}");
    assert!(Opcode::ALL.iter().all(|&opcode| met[opcode as usize] > 10), "{met:?}");
}

#[test]
fn enumerated_calls_meet_both_sides() {
    for (title, section) in SECTIONS {
        let mut comparer = TextComparer::new(&OracleText);
        section(&mut |call| {
            if comparer.compared < 3_000 || comparer.met.assembled + comparer.met.printed == 0 {
                comparer.compare(&call);
            }
        });
        let Met { assembled, bad_first_lines, bad_later_lines, printed, unused_bits, .. } = comparer.met;
        let (taken, refused) = (assembled + printed, bad_first_lines + bad_later_lines + unused_bits);
        assert!(taken > 0 && refused > 0, "{title}: {:?}", comparer.met);
    }
}

#[test]
fn the_examples_are_right_and_one_has_all_names() {
    for text in [SMALL, WHOLE] {
        assert_eq!(Call::assemble(text.into()).through(&OracleText).told.code, 0, "{text}");
    }
    let opcodes: Vec<Opcode> = lines(WHOLE.as_bytes())
        .filter_map(|line| match line {
            Line::Instruction(line) => named(line.split(|&byte| byte == b' ').next()?).map(|(opcode, _)| opcode),
            _ => None,
        })
        .collect();
    assert_eq!(opcodes, Opcode::ALL);
}

#[test]
fn a_share_of_all_words_is_printed_and_assembled() {
    let mut printed = PrintedWords::new(&OracleText);
    for part in 0..512 {
        let first = part << 23 | (part * 0x9e3779) & 0x7fff80;
        assert!(Words::between(first, first + 512).all(|word| printed.compare(word)));
    }
    assert!(printed.finish());
    assert!(printed.decodable > 40_000 && printed.unknown_opcodes > 100_000 && printed.unused_bits > 40_000);
}

#[test]
fn the_texts_that_are_measured_have_as_many_labels_and_uses() {
    for row in text_rows().iter().filter(|row| row.labels > 0) {
        let met: Vec<Line> = lines(&row.call.given).collect();
        let definitions = met.iter().filter(|line| matches!(line, Line::Definition(_))).count();
        let uses = met
            .iter()
            .filter(|line| matches!(line, Line::Instruction(line) if line.windows(5).any(|part| part == b"label")));
        assert_eq!((met.len(), definitions, uses.count()), (row.lines, row.labels, row.lines - row.labels));
        assert_eq!(row.call.through(&OracleText).told.code, 0);
    }
}
