//! What refusals and stops say: the words of docs/stops.txt, for all that stands there.

use yokeglimmer::{run, Mode, Refusal, Refused, State, Stop};

const EVERY: [Stop; 14] = [
    Stop::Fuel,
    Stop::Refused(Refusal::DivisorZero { pc: 8 }),
    Stop::Refused(Refusal::Beyond { missing: 64, length: 62 }),
    Stop::Refused(Refusal::Misaligned { address: 1 }),
    Stop::Refused(Refusal::BadOpcode { word: 0x800000f3 }),
    Stop::Refused(Refusal::UnusedBits { word: 0xb2 }),
    Stop::Refused(Refusal::PcMisaligned { pc: 2 }),
    Stop::Refused(Refusal::PcBeyond { pc: 64 }),
    Stop::Refused(Refusal::ListFull { pc: 12 }),
    Stop::Refused(Refusal::Malformed),
    Stop::Refused(Refusal::BadLine { line: 3 }),
    Stop::Refused(Refusal::BadImage),
    Stop::Ebreak,
    Stop::Ecall,
];

/// The lines of the table: code, name, particular, words.
fn table() -> Vec<(u64, String, String, String)> {
    let path = concat!(env!("CARGO_MANIFEST_DIR"), "/../docs/stops.txt");
    let text = std::fs::read_to_string(path).expect("docs/stops.txt is there");
    let lines = text.lines().filter(|line| !line.starts_with('#'));
    lines.map(|line| row(&line.split_whitespace().collect::<Vec<_>>())).collect()
}

fn row(words: &[&str]) -> (u64, String, String, String) {
    (words[0].parse().expect("a code"), words[1].to_string(), words[2].to_string(), words[3..].join(" "))
}

/// What a stop says, by the table's line; of a missing byte also how many there are.
fn said(stop: Stop, name: &str, particular: &str, words: &str) -> String {
    let refusal = match stop {
        Stop::Refused(Refusal::Beyond { missing, length }) => {
            return format!("refused 2: byte {missing} is beyond the memory's {length}")
        }
        Stop::Refused(refusal) => refusal,
        _ => return format!("{}: {words}", name.to_lowercase()),
    };
    let place = match particular {
        "-" => String::new(),
        "word" => format!(" (word 0x{:08x})", refusal.particular()),
        _ => format!(" ({particular} {})", refusal.particular()),
    };
    format!("refused {}: {words}{place}", refusal.number())
}

#[test]
fn each_stop_has_the_code_the_name_the_particular_and_the_words_of_the_table() {
    let table = table();
    assert_eq!(table.len(), EVERY.len());
    for ((code, name, particular, words), stop) in table.into_iter().zip(EVERY) {
        assert_eq!(stop.code(), code);
        assert!(format!("{stop:?}").contains(&name), "{stop:?} is {name}");
        assert_eq!(stop.to_string(), said(stop, &name, &particular, &words));
    }
}

#[test]
fn a_refusal_is_an_error_that_keeps_what_was_done() {
    let mut memory = [0x89, 0x80, 0x03, 0x00, 0x32, 0x00, 0x00, 0x00]; // Addi R1,R0,7; Ebreak
    let (mut state, mut short) = (State::new(0), State::new(0));
    let refused: Refused = run(&mut short, &mut memory[..4], 10, Mode::Plain).or_refused().expect_err("refused");
    assert_eq!((refused.refusal, refused.steps), (Refusal::PcBeyond { pc: 4 }, 1));
    assert_eq!((short.pc(), short.value(1)), (4, 7));
    assert_eq!(refused.to_string(), "refused 7: the instruction reaches beyond memory (pc 4); steps: 1");
    let source = std::error::Error::source(&refused).expect("the refusal");
    assert_eq!(source.to_string(), refused.refusal.to_string());
    let answer = run(&mut state, &mut memory, 10, Mode::Plain).or_refused().expect("not refused");
    assert_eq!((answer.stop, answer.steps), (Stop::Ebreak, 2));
}

#[test]
fn modes_have_numbers_and_names() {
    for (mode, number, name) in [(Mode::Plain, 0, "plain"), (Mode::Deferred, 1, "deferred")] {
        assert_eq!((u64::from(mode), Mode::try_from(number)), (number, Ok(mode)));
        assert_eq!((mode.to_string(), format!("{mode:>9}")), (name.to_string(), format!("{name:>9}")));
    }
    for number in [2, 256, u64::MAX] {
        assert!(Mode::try_from(number).is_err(), "{number}");
    }
}
