// With ZKIR_EXPORTS naming static libraries, a colon between them, they are linked: those of the crates `singles`, `exports` and
// `machines`, so that the functions that the host call does not reach are compared too, that of the crate `text`, so that texts
// are, and that of `checkpoint`. A library is known by its name; a relative path counts from the repository's root.

use std::env;
use std::path::{Path, PathBuf};

fn main() {
    println!("cargo:rerun-if-env-changed=ZKIR_EXPORTS");
    println!("cargo:rustc-check-cfg=cfg(exports, exports_text, exports_checkpoint)");
    let Some(named) = env::var_os("ZKIR_EXPORTS") else { return };
    let root = PathBuf::from(env::var_os("CARGO_MANIFEST_DIR").expect("cargo sets CARGO_MANIFEST_DIR")).join("..");
    for path in env::split_paths(&named) {
        let archive = root.join(path);
        assert!(archive.is_file(), "ZKIR_EXPORTS: no file {}", archive.display());
        println!("cargo:rerun-if-changed={}", archive.display());
        println!("cargo:rustc-link-arg={}", archive.display());
        println!("cargo:rustc-cfg={}", told_apart(&archive));
    }
}

fn told_apart(archive: &Path) -> &'static str {
    match archive.file_name().and_then(|name| name.to_str()) {
        Some("libtext.a") => "exports_text",
        Some("libcheckpoint.a") => "exports_checkpoint",
        Some("libsingles.a" | "libexports.a" | "libmachines.a") => "exports",
        _ => panic!(
            "ZKIR_EXPORTS: {} is none of libsingles.a, libexports.a, libmachines.a, libtext.a, libcheckpoint.a",
            archive.display()
        ),
    }
}
