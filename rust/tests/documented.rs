//! Every public item has an example in its documentation, which `cargo test` runs.

use std::fs;
use std::path::Path;

const ITEMS: [&str; 5] = ["pub fn ", "pub struct ", "pub enum ", "pub const ", "pub trait "];

/// The public items of a source file without an example in the comment above them.
fn without_example(path: &Path) -> Vec<String> {
    let text = fs::read_to_string(path).expect("a source file");
    let (mut has_example, mut missing) = (false, Vec::new());
    for line in text.lines().map(str::trim_start) {
        if ITEMS.iter().any(|item| line.starts_with(item)) && !has_example {
            missing.push(format!("{}: {line}", path.display()));
        }
        let is_above_an_item = line.starts_with("///") || line.starts_with("#[");
        has_example = is_above_an_item && (has_example || line.starts_with("/// ```"));
    }
    missing
}

#[test]
fn every_public_item_has_an_example() {
    let folder = Path::new(env!("CARGO_MANIFEST_DIR")).join("src");
    let mut missing = Vec::new();
    for entry in fs::read_dir(folder).expect("the sources") {
        missing.extend(without_example(&entry.expect("a file").path()));
    }
    // declarations of the archive's calls, each of which has a safe function with an example
    missing.retain(|line| !line.contains("zkir_"));
    assert!(missing.is_empty(), "{missing:#?}");
}
