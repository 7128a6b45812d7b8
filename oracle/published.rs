// Shared by the build scripts of the two stand-in crates: takes the published files from the folder that ZKIR_SRC
// names and has them compiled as modules, byte for byte.

use std::path::{Path, PathBuf};
use std::{env, fs, process};

/// Copies `<package>/src/<module>.rs` for each module to OUT_DIR, and writes OUT_DIR/published.rs, which declares them
/// and lists their names, lengths, hashes and texts.
fn take_published(package: &str, modules: &[&str]) {
    println!("cargo:rerun-if-env-changed=ZKIR_SRC");
    println!("cargo:rerun-if-changed=../published.rs");
    let source = source_folder().join(package).join("src");
    let out = PathBuf::from(env::var_os("OUT_DIR").expect("cargo sets OUT_DIR"));
    let mut declared = String::new();
    let mut listed = String::new();
    let mut texts = String::new();
    for module in modules {
        let from = source.join(format!("{module}.rs"));
        let copy = out.join(format!("{module}.rs"));
        println!("cargo:rerun-if-changed={}", from.display());
        let text = copy_unchanged(&from, &copy);
        declared += &format!("#[allow(warnings)]\n#[path = {:?}]\npub mod {module};\n", copy.display().to_string());
        listed += &format!("    ({:?}, {}, {:#018x}),\n", format!("{module}.rs"), text.len(), fnv1a(&text));
        texts += &format!("    ({:?}, include_str!({:?})),\n", format!("{module}.rs"), copy.display().to_string());
    }
    let table = format!("/// The published files compiled here: name, length, FNV-1a hash of the bytes.\npub const PUBLISHED: &[(&str, usize, u64)] = &[\n{listed}];\n");
    let table = table + &format!("/// The text of each.\npub const TEXTS: &[(&str, &str)] = &[\n{texts}];\n");
    fs::write(out.join("published.rs"), declared + &table).expect("OUT_DIR can be written");
}

/// ZKIR_SRC, or ../shared/docs/src; a relative path counts from the repository's root, the folder above oracle/.
fn source_folder() -> PathBuf {
    let named = env::var_os("ZKIR_SRC").unwrap_or_else(|| "../shared/docs/src".into());
    let manifest = PathBuf::from(env::var_os("CARGO_MANIFEST_DIR").expect("cargo sets CARGO_MANIFEST_DIR"));
    manifest.join("../..").join(named)
}

fn copy_unchanged(from: &Path, copy: &Path) -> Vec<u8> {
    let text = fs::read(from).unwrap_or_else(|error| {
        eprintln!("{}: {error}. The published files are not in this repository: set ZKIR_SRC to their folder.", from.display());
        process::exit(1)
    });
    fs::write(copy, &text).expect("OUT_DIR can be written");
    let copied = fs::read(copy).expect("the copy was just written");
    assert!(copied == text && fnv1a(&copied) == fnv1a(&text), "the copy of {} differs", from.display());
    text
}

fn fnv1a(bytes: &[u8]) -> u64 {
    bytes.iter().fold(0xcbf29ce484222325, |hash, &byte| (hash ^ byte as u64).wrapping_mul(0x100000001b3))
}
