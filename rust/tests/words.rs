//! The print of words: document 01's, those of the definition, and those of the examples.
#![cfg(feature = "text")]

mod common;

use std::fs;
use std::path::{Path, PathBuf};

use common::repository;
use yokeglimmer::{assemble, print, Refusal};

fn printed(word: u32) -> String {
    print(&[word]).unwrap_or_else(|bad| panic!("{bad}"))
}

#[test]
fn document_01s_words() {
    assert_eq!(printed(0x00010981), "Add R3, R1, R2\n");
    assert_eq!(printed(0xffff8089), "Addi R1, R0, -1\n");
    assert_eq!(printed(0x00041927), "Sw R2, R3, 8\n");
    assert_eq!(printed(0xffffe7af), "Jal R15, -4\n");
    assert_eq!((printed(49), printed(50)), ("Ecall\n".to_string(), "Ebreak\n".to_string()));
    assert_eq!(print(&[51]).map_err(|bad| bad.refusal), Err(Refusal::BadOpcode { word: 51 }));
}

/// The definition has a line `row_of O.Add = row 1 R` for each opcode.
#[test]
fn names_and_forms_are_those_of_the_definition() {
    let definition = fs::read_to_string(repository("crates/opcode/specs/Opcodes.antt")).expect("the definition");
    let rows = definition.lines().filter_map(|line| line.strip_prefix("row_of O."));
    let rows: Vec<Vec<&str>> = rows.map(|row| row.split(' ').filter(|word| !word.is_empty()).collect()).collect();
    assert_eq!(rows.len(), 50);
    for row in rows {
        let (name, number, form) = (row[0], row[3].parse::<u32>().expect("a number"), row[4]);
        let operands = match form {
            "R" => " R0, R0, R0",
            "I" | "Shift" | "S" | "B" => " R0, R0, 0",
            "J" => " R0, 0",
            _ => "",
        };
        let line = format!("{name}{operands}\n");
        assert_eq!((printed(number), assemble(&line)), (line, Ok(vec![number])));
    }
}

/// The files of the examples whose names end so.
fn examples(ending: &str) -> Vec<PathBuf> {
    let folders = ["examples", "examples/cases"].map(|folder| fs::read_dir(repository(folder)).expect("the examples"));
    let files = folders.into_iter().flatten().map(|entry| entry.expect("a file").path());
    files.filter(|path| path.extension().map_or(false, |extension| extension == ending)).collect()
}

/// The first word.
fn first(text: &str) -> &str {
    text.split_whitespace().next().unwrap_or_default()
}

/// A line of a file of words is a word, then as a remark its address and its instruction.
#[test]
fn the_examples_remarks() {
    let (names, mut compared): (Vec<String>, _) = ((1..=50).map(|opcode| first(&printed(opcode)).into()).collect(), 0);
    for path in examples("hex") {
        for line in fs::read_to_string(&path).expect("a text").lines() {
            compared += usize::from(compare(line, &names, &path));
        }
    }
    assert!(compared > 250, "{compared} remarks were compared");
}

/// Whether the line's remark is an instruction; then it is that of the line's word.
fn compare(line: &str, names: &[String], path: &Path) -> bool {
    let (word, remark) = match line.split_once('#') {
        Some((word, remark)) if word.trim().len() == 8 => (word.trim(), remark.trim()),
        _ => return false,
    };
    let said = remark.trim_start_matches(|c: char| c.is_ascii_digit()).trim();
    if !names.iter().any(|name| name == first(said)) {
        return false;
    }
    let text = print(&[u32::from_str_radix(word, 16).expect("a word")]);
    let text = text.as_ref().map_or("no instruction", |text| text.trim_end());
    let rest = said.strip_prefix(text).unwrap_or_else(|| panic!("{}: {line}: {text}", path.display()));
    assert!(!rest.starts_with(|c: char| c.is_ascii_digit() || c == ','), "{}: {line}: {text}", path.display());
    true
}

/// The words that a file of words spells: eight digits each.
fn spelled(path: &Path) -> Vec<u32> {
    let text = fs::read_to_string(path).expect("a text");
    let lines = text.lines().map(|line| line.split('#').next().unwrap_or_default());
    let words = lines.flat_map(str::split_whitespace);
    words.map(|word| u32::from_str_radix(word, 16).expect("a word")).collect()
}

#[test]
fn the_examples_texts_have_their_words() {
    let mut compared = 0;
    for path in examples("zk") {
        let words =
            assemble(fs::read(&path).expect("a text")).unwrap_or_else(|bad| panic!("{}: {bad}", path.display()));
        assert_eq!(print(&words).map(assemble), Ok(Ok(words.clone())), "{}", path.display());
        let spelling = path.with_extension("hex");
        if spelling.exists() {
            assert_eq!(words, spelled(&spelling), "{}", path.display());
            compared += 1;
        }
    }
    assert!(compared > 30, "{compared} texts were compared");
}
