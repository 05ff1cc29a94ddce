#!/bin/sh
# Nothing shows what the sources no longer say. In a fresh copy of the files under version control, with the archive where there is one: one changed line
# changes what ./bales, the C tests and the Rust example show, and the line undone brings it back. What is proved of the files here, rt takes from here.
set -u
cd "$(dirname "$0")/../.." || exit 2
work=$(mktemp -d)
trap 'rm -rf "$work"' EXIT
passed=0
failed=0
git ls-files -z | xargs -0 cp --parents -t "$work" || exit 2
[ ! -d target/staticlib ] || cp -a --parents target/staticlib "$work" || exit 2
cd "$work" || exit 2

# expect NAME STATUS TEXT COMMAND..: the command ends with the status (`other`: not 0), and one line of all that it says is TEXT
expect() {
    name=$1
    status=$2
    text=$3
    shift 3
    "$@" >said 2>&1
    ended=$?
    [ "$status" = 0 ] || [ "$ended" = 0 ] || ended=other
    if [ "$ended" = "$status" ] && grep -q -- "$text" said; then
        passed=$((passed + 1))
    else
        failed=$((failed + 1))
        echo "stale: $name: status $ended, not $status, or no line $text"
        tail -n 20 said
    fi
}

kept() {
    ./bales crates/bales_limits/data/bales.idx <crates/bales_limits/stdin
}
c() {
    sh tests/c/run.sh
}
rust() {
    cargo run --quiet --offline --locked --manifest-path rust/Cargo.toml --example bales
}

# ---- the program: of the index it reads 4,096 bytes, which are not all; the change is proved
expect "./bales as it is" 0 '^run,7,9$' kept
cp -p crates/program/src/lib.rt program.rt
sed -i 's/let mut buf = \[0u8; 8193\];/let mut buf = [0u8; 4096];/' crates/program/src/lib.rt
expect "./bales with a changed line" other '^refused,2$' kept
cp -p program.rt crates/program/src/lib.rt
expect "./bales with the line undone" 0 '^run,7,9$' kept

# ---- a program that is not proved is not run
cp -p crates/report/src/print.rt print.rt
sed -i 's/b"count,"/b"total,"/' crates/report/src/print.rt
expect "./bales with a line that is not proved" other '^bales: the program is not proved and built$' kept
cp -p print.rt crates/report/src/print.rt
expect "./bales with that line undone" 0 '^run,7,9$' kept

# ---- the archive: an export gets another name. Rust sees the change first, and C that it is undone
expect "C as it is" 0 '^c: [0-9]* passed, 0 failed$' c
expect "Rust as it is" 0 '^kept row number 3: 8$' rust
cp -p crates/press/src/runs.rt runs.rt
sed -i 's/fn mudcanvas_raw_run_select(/fn mudcanvas_raw_run_selected(/' crates/press/src/runs.rt
expect "Rust with a changed line" other 'undefined \(reference\|symbol\).*mudcanvas_raw_run_select' rust
expect "C with a changed line" other 'undefined reference to .mudcanvas_raw_run_select.' c
# the file has its old time again, so that only its contents tell
cp -p runs.rt crates/press/src/runs.rt
expect "C with the line undone" 0 '^c: [0-9]* passed, 0 failed$' c
expect "Rust with the line undone" 0 '^kept row number 3: 8$' rust

# ---- both replays have the same cases
same() {
    diff -rs crates/replay/data crates/replay_values/data
}
expect "the stored cases as values" 0 'wrong.bin are identical$' same

# ---- an archive that is missing, by its folder
expect "Rust without an archive" other 'MUDCANVAS_LIB_DIR' env MUDCANVAS_LIB_DIR="$work/nowhere" cargo build --offline --locked --manifest-path rust/Cargo.toml
echo "stale: $passed passed, $failed failed"
[ "$failed" = 0 ]
