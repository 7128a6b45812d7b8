// Finds or makes the archives of archives.txt, copies them into OUT_DIR, and links them: the run's, and those whose
// feature is on.
//
// A variable may name an archive; a relative path counts from the folder above this package. One that isn't named is taken
// from the folder `lib` there, which a distribution has (tools/dist). In the repository tools/archives makes it, in the
// repository's target/ and not in OUT_DIR: a proof takes long, and its archive serves every profile. It is made again only
// where a source of it has changed.

use std::env;
use std::fs;
use std::path::{Path, PathBuf};
use std::process::{exit, Command};
use std::time::Instant;

/// A line of archives.txt.
struct Archive {
    /// The crate that it is made from.
    of: &'static str,
    /// Its name in a distribution.
    name: &'static str,
    /// What may name another file.
    variable: &'static str,
    feature: &'static str,
    exports: String,
}

impl Archive {
    fn of_line(line: &'static str) -> Archive {
        match line.split_whitespace().collect::<Vec<_>>()[..] {
            [of, name, variable, feature, ref calls @ ..] => {
                Archive { of, name, variable, feature, exports: calls.join(" and ") }
            }
            _ => fail(&format!("archives.txt: {line}: no archive")),
        }
    }

    fn is_wanted(&self) -> bool {
        self.feature == "-" || env::var_os(format!("CARGO_FEATURE_{}", self.feature.to_uppercase())).is_some()
    }
}

fn main() {
    println!("cargo:rerun-if-changed=build.rs");
    println!("cargo:rerun-if-changed=archives.txt");
    let above = Path::new(&variable("CARGO_MANIFEST_DIR")).join("..");
    let lines = include_str!("archives.txt").lines().filter(|line| !line.starts_with('#'));
    for archive in lines.map(Archive::of_line).filter(Archive::is_wanted) {
        link(&archive, &found(&archive, &above));
    }
}

fn found(archive: &Archive, above: &Path) -> PathBuf {
    println!("cargo:rerun-if-env-changed={}", archive.variable);
    let delivered = above.join("lib").join(format!("lib{}.a", archive.name));
    if let Some(named) = env::var_os(archive.variable).filter(|named| !named.is_empty()) {
        existing(archive, above.join(named))
    } else if delivered.is_file() {
        refuse_other_processors(archive);
        existing(archive, delivered)
    } else {
        made(archive, above)
    }
}

fn existing(archive: &Archive, path: PathBuf) -> PathBuf {
    if !path.is_file() {
        fail(&format!("{}: no file {}", archive.variable, path.display()));
    }
    println!("cargo:rerun-if-changed={}", path.display());
    path
}

fn refuse_other_processors(archive: &Archive) {
    let (os, processor) = (variable("CARGO_CFG_TARGET_OS"), variable("CARGO_CFG_TARGET_ARCH"));
    if (os.as_str(), processor.as_str()) != ("linux", "x86_64") {
        fail(&format!("lib/lib{}.a is for x86-64 Linux, not for {os} on {processor}", archive.name));
    }
}

fn made(archive: &Archive, above: &Path) -> PathBuf {
    let tool = above.join("tools/archives");
    if !tool.is_file() {
        fail(&format!(
            "there is no archive: set {} to one that exports {}, or take a distribution or the repository",
            archive.variable, archive.exports
        ));
    }
    let folder = folder_of_made(archive);
    for source in said_by(Command::new(&tool).args(["--sources", archive.of])).lines() {
        println!("cargo:rerun-if-changed={}", above.join(source).display());
    }
    if !Command::new(&tool).args(["--is-made", archive.of]).status().map_or(false, |status| status.success()) {
        make(archive, &tool);
    }
    above.join(folder).join(format!("lib{}.a", archive.of))
}

fn folder_of_made(archive: &Archive) -> &'static str {
    let (os, processor, host) = (variable("CARGO_CFG_TARGET_OS"), variable("CARGO_CFG_TARGET_ARCH"), variable("HOST"));
    if (os.as_str(), processor.as_str()) != ("linux", "x86_64") {
        fail(&format!(
            "no archive can be made for {os} on {processor} here ({host}): rt makes them for x86-64 Linux; \
             set {} to one that exports {}",
            archive.variable, archive.exports
        ));
    }
    "target/staticlib"
}

fn make(archive: &Archive, tool: &Path) {
    tell(&format!(
        "proving the crate {} for its archive: about half a minute, some minutes the first time; {} can name an archive",
        archive.of, archive.variable
    ));
    let started = Instant::now();
    said_by(Command::new(tool).arg(archive.of));
    println!(
        "cargo:warning=the crate {} was proved for its archive, in {} s; that is done again where a source has changed",
        archive.of,
        started.elapsed().as_secs()
    );
}

// cargo shows a build script's warnings once it has ended: who waits at a terminal is told there.
fn tell(what: &str) {
    let _ = fs::write("/dev/tty", format!("\ryokeglimmer: {what}\n"));
}

fn said_by(command: &mut Command) -> String {
    match command.output() {
        Ok(output) if output.status.success() => String::from_utf8_lossy(&output.stdout).into_owned(),
        Ok(output) => fail(&format!(
            "{command:?} failed ({}) and said:\n{}{}",
            output.status,
            String::from_utf8_lossy(&output.stdout),
            String::from_utf8_lossy(&output.stderr)
        )),
        Err(error) => fail(&format!("{command:?} does not start ({error})")),
    }
}

// The package's library then holds the archive's code: its users link nothing. The copy is whole or not there.
fn link(archive: &Archive, path: &Path) {
    let folder = PathBuf::from(variable("OUT_DIR"));
    let (whole, copy) = (folder.join(format!("lib{}.a", archive.name)), folder.join("copy"));
    if let Err(error) = fs::copy(path, &copy).and_then(|_| fs::rename(&copy, &whole)) {
        fail(&format!("{} cannot be copied to {} ({error})", path.display(), whole.display()));
    }
    println!("cargo:rustc-link-search=native={}", folder.display());
    println!("cargo:rustc-link-lib=static={}", archive.name);
}

fn variable(name: &str) -> String {
    env::var(name).unwrap_or_else(|_| fail(&format!("cargo did not set {name}")))
}

fn fail(why: &str) -> ! {
    eprintln!("yokeglimmer: {why}");
    exit(1)
}
