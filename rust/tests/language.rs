//! The examples of docs/LANGUAGE.md.
#![cfg(feature = "text")]

mod common;

use std::fs;

use common::repository;
use yokeglimmer::{assemble, print};

fn page() -> String {
    fs::read_to_string(repository("docs/LANGUAGE.md")).expect("docs/LANGUAGE.md is there")
}

/// The fenced blocks, with what stands behind their first three marks.
fn blocks(page: &str) -> Vec<(String, String)> {
    let fenced = page.split("\n```").skip(1).step_by(2);
    fenced.filter_map(|block| block.split_once('\n')).map(|(kind, text)| (kind.into(), format!("{text}\n"))).collect()
}

/// The words of a table's row behind its number.
fn mistakes() -> Vec<String> {
    let text = fs::read_to_string(repository("docs/mistakes.txt")).expect("docs/mistakes.txt is there");
    let rows = text.lines().filter(|line| !line.starts_with('#'));
    rows.map(|row| row.split_whitespace().skip(2).collect::<Vec<_>>().join(" ")).collect()
}

#[test]
fn its_texts_are_programs_and_its_prints_are_theirs() {
    let (mut programs, mut prints, mut last) = (0, 0, Vec::new());
    for (kind, text) in blocks(&page()) {
        match kind.as_str() {
            "zk" => last = assemble(&text).unwrap_or_else(|bad| panic!("{bad}")),
            "printed" => assert_eq!(print(&last), Ok(text)),
            _ => continue,
        }
        programs += usize::from(kind == "zk");
        prints += usize::from(kind == "printed");
    }
    assert_eq!((programs, prints), (3, 1));
}

/// Lines like `line 2: again:: an earlier line defines this label (column 1: again)`: of a text that has the line so often.
#[test]
fn each_mistake_has_an_example_and_is_said_so() {
    let page = page();
    let told: Vec<(String, String)> = blocks(&page).into_iter().filter(|(kind, _)| kind == "mistakes").collect();
    let lines: Vec<&str> = told[0].1.lines().collect();
    assert_eq!(lines.len(), mistakes().len());
    for ((number, words), said) in (1..).zip(mistakes()).zip(lines) {
        let (line, text) = said.split_once(": ").expect("a line's number");
        let (text, _) = text.split_once(&format!(": {words} (column ")).unwrap_or_else(|| panic!("{said}: no {words}"));
        let copies = line["line ".len()..].parse().expect("a number");
        let bad = assemble(format!("{text}\n").repeat(copies)).expect_err(said);
        assert_eq!((bad.mistake.number(), bad.to_string()), (number, said.to_string()));
    }
}

#[test]
fn the_table_of_mistakes_has_their_words() {
    let page = page();
    let rows = page.lines().map(|line| line.split(" | ").collect::<Vec<_>>());
    let said = rows.filter(|row| row[0].starts_with("| ") && row[0][2..].parse::<u64>().is_ok());
    let said: Vec<String> = said.map(|row| row[1].to_string()).collect();
    assert_eq!(said, mistakes());
}

#[test]
fn its_first_program_is_the_example() {
    let first = blocks(&page()).into_iter().next().map(|(_, text)| text);
    assert_eq!(first, fs::read_to_string(repository("examples/sum.zk")).ok());
}
