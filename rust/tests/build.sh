#!/usr/bin/env bash
# build.sh FOLDER: how a host builds the crate, with the archives libCRATE.a of the folder: in a workspace of its own; in a copy of
# the repository, where a stand-in for tools/native hands the archives out and counts how often it is asked. Called by rust/check.
set -eu
archives=$(readlink -f "$1")
rust=$(dirname "$(dirname "$(readlink -f "$0")")")
count=$(grep -vc '^#' "$rust/archives.txt")
work=$(mktemp -d)
# shellcheck disable=SC2046
unset CARGO_TARGET_DIR $(awk '!/^#/ { print $3 }' "$rust/archives.txt")
trap 'rm -rf "$work"' EXIT
trap 'exit 130' INT
trap 'exit 143' HUP TERM

fail() {
    echo "tests/build.sh: FAILED: $*" >&2
    exit 1
}

copy_crate() { # TO
    mkdir -p "$1"
    (cd "$rust" && tar -cf - --exclude=./target .) | tar -xf - -C "$1"
}

name_archives() { # by the variables of archives.txt
    while read -r crate _ variable _; do
        export "$variable=$archives/lib$crate.a"
    done < <(grep -v '^#' "$rust/archives.txt")
}

in_a_workspace() {
    copy_crate "$work/workspace/vendored/rust"
    mkdir -p "$work/workspace/host/src"
    cd "$work/workspace"
    echo '[workspace]
members = ["host"]' >Cargo.toml
    echo '[package]
name = "host"
version = "0.1.0"
edition = "2021"
[dependencies]
yokeglimmer = { path = "../vendored/rust" }' >host/Cargo.toml
    cat >host/src/main.rs <<'END'
fn main() -> Result<(), Box<dyn std::error::Error>> {
    let mode = yokeglimmer::Mode::try_from(0)?;
    let mut state = yokeglimmer::State::try_from([0; yokeglimmer::STATE_BYTES])?;
    let mut memory: Vec<u8> = yokeglimmer::assemble("Ebreak")?.iter().flat_map(|word| word.to_le_bytes()).collect();
    let answer = yokeglimmer::run(&mut state, &mut memory, 10, mode).or_refused()?;
    println!("{mode}: {answer}");
    Ok(())
}
END
    said=$(name_archives && cargo run --offline --quiet) || fail "a host's workspace around the crate"
    [ "$said" = 'plain: ebreak: the program stopped by itself; steps: 1' ] || fail "a host in a workspace says: $said"
}

stand_in() { # writes the tools/native of the copy
    cat >"$work/repository/tools/native" <<END
#!/bin/sh
echo "\$1" >>"$work/asked"
cd "$work/repository"
mkdir -p target/native target/staticlib
[ ! -f "$work/slow" ] || { echo part >target/native/lib\$1.a && echo part >target/staticlib/lib\$1.a && sleep 60; }
cp "$archives/lib\$1.a" target/native && cp "$archives/lib\$1.a" target/staticlib
END
    touch -d '1 hour ago' "$work/repository/tools/native"
}

asked() { wc -l <"$work/asked"; }

build() { (cd "$work/repository/rust" && cargo build --offline >"$work/said" 2>&1) || { cat "$work/said" >&2; fail "$1"; }; }

expect_asked() { # COUNT WHEN
    build "the crate, $2"
    [ "$(asked)" -eq "$1" ] || fail "$2, archives were made $(asked) times, not $1"
}

in_the_repository() {
    copy_crate "$work/repository/rust"
    tar -C "$rust/.." --exclude=out -cf - crates crates.txt tools | tar -C "$work/repository" -xf -
    find "$work/repository" -exec touch -d '1 hour ago' {} +
    stand_in
    expect_asked "$count" "the first time"
    grep -q 'warning.*the crate host was proved for its archive, in [0-9]* s' "$work/said" || fail "cargo build does not say that it proves"
    find "$work/repository/rust/target" -path '*/out/libzkir_run.a' | grep -q . || fail "the archive is not copied to OUT_DIR"
    expect_asked "$count" "with nothing changed"
    touch "$work/repository/crates/host/edits" "$work/repository"/crates/*/edits/*.edit
    expect_asked "$count" "with edits changed"
    ! grep -q Compiling "$work/said" || fail "an edit makes cargo build again"
    touch "$work/repository/crates/promises/src/lib.rt"
    expect_asked "$count" "with a crate changed that the archives are not made from"
    touch "$work/repository/crates/memory/src/lib.rt"
    expect_asked $((2 * count)) "with a source changed"
}

at_a_terminal() {
    touch "$work/repository/crates/memory/src/lib.rt"
    cd "$work/repository/rust"
    script -qec 'cargo build --offline' /dev/null >"$work/said" 2>&1 </dev/null || fail "the crate, at a terminal"
    grep -q 'yokeglimmer: proving the crate host for its archive: about' "$work/said" || fail "nothing is said while it proves"
}

interrupted() {
    touch "$work/slow" "$work/repository/crates/memory/src/lib.rt"
    cd "$work/repository"
    set -m
    tools/archives host >/dev/null 2>&1 &
    set +m
    sleep 2
    kill -TERM -- "-$!"
    wait $! || true
    [ ! -e target/native/libhost.a ] && [ ! -e target/staticlib/libhost.a ] || fail "half an archive is left after an interrupt"
}

without_archives() {
    copy_crate "$work/alone/rust"
    cd "$work/alone/rust"
    ! cargo build --offline >"$work/said" 2>&1 || fail "the crate builds without an archive"
    grep -q 'there is no archive: set ZKIR_ARCHIVE to one that exports zkir_run' "$work/said" || fail "a missing archive is not named"
}

in_a_workspace
in_the_repository
if command -v script >/dev/null; then at_a_terminal; fi
interrupted
without_archives
