#!/bin/sh
# The tests of the Rust package, in the debug and in the release profile: those in rust/src and rust/tests, and the examples in its documentation.
# Then, each as one test: the example program, the documentation, the lints and the format, and the packed crate with the archive and without it.
set -u
cd "$(dirname "$0")/../../rust" || exit 2
root=$(cd .. && pwd)
archive=${MUDCANVAS_LIB_DIR:-$root/target/staticlib}
work=$(mktemp -d)
trap 'rm -rf "$work"' EXIT
log=$work/log
passed=0
failed=0

# tests OPTION..: the tests of a profile, counted one by one. Where none failed, but cargo's status is not 0 or there were no tests, one has failed.
tests() {
    cargo test --offline --locked "$@" >"$log" 2>&1
    status=$?
    cat "$log"
    counts=$(sed -n 's/^test result: .* \([0-9]*\) passed; \([0-9]*\) failed;.*/\1 \2/p' "$log" |
        awk '{ good += $1; bad += $2 } END { print good + 0, bad + 0 }')
    good=${counts% *}
    bad=${counts#* }
    if [ "$bad" = 0 ] && { [ "$status" != 0 ] || [ "$good" = 0 ]; }; then bad=1; fi
    passed=$((passed + good))
    failed=$((failed + bad))
}

# check NAME COMMAND..: one test, with the command's output where it fails
check() {
    name=$1
    shift
    if "$@" >"$log" 2>&1; then
        echo "$name: passed"
        passed=$((passed + 1))
    else
        cat "$log"
        echo "$name: failed"
        failed=$((failed + 1))
    fi
}

example() {
    cargo run --offline --locked --quiet --example bales >"$work/stdout" && diff ../tests/examples/stdout "$work/stdout"
}

documentation() {
    RUSTDOCFLAGS="-D warnings" cargo doc --offline --locked --no-deps
}

lints() {
    cargo clippy --offline --locked --all-targets -- -D warnings
}

pack() {
    cargo package --offline --allow-dirty --target-dir "$root/target/rust-package"
}

with_archive() (
    export MUDCANVAS_LIB_DIR="$archive"
    pack
)

# the build script must say what to do
without_archive() (
    unset MUDCANVAS_LIB_DIR
    if pack >"$work/packed" 2>&1; then
        echo "the packed crate was built without an archive"
        exit 1
    fi
    cat "$work/packed"
    grep -q "set MUDCANVAS_LIB_DIR to the full path of the folder" "$work/packed"
)

tests
tests --release
check "example" example
check "documentation" documentation
if cargo clippy --version >/dev/null 2>&1; then check "lints" lints; else echo "lints: not run, since there is no cargo-clippy"; fi
if cargo fmt --version >/dev/null 2>&1; then check "format" cargo fmt --check; else echo "format: not run, since there is no rustfmt"; fi
check "packed crate" with_archive
check "packed crate without the archive" without_archive
echo "rust: $passed passed, $failed failed"
[ "$failed" = 0 ]
