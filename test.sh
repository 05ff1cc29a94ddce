#!/bin/sh
# test.sh [ROUNDS]: all tests that the gate (.ci/run) does not run, each with a last line `NAME: N passed, M failed`. Status 0 where nothing failed.
# It needs the Rattle kit, git, a C compiler and cargo (without network). The comparison with the Rust original is made where OPEN_EVENT_SRC names the folder
# `src` of open-event-format, with ROUNDS rounds of random inputs (2,000 if not given).
set -u
cd "$(dirname "$0")" || exit 2
rounds=${1:-2000}
passed=0
failed=0

# suite NAME COMMAND..: its output, with its line counted; a suite that ends without one, or with a status other than 0, has failed
suite() {
    name=$1
    shift
    mkdir -p target
    "$@" >"target/test-$name.log" 2>&1
    status=$?
    line=$(sed -n "s/^$name: \([0-9]*\) passed, \([0-9]*\) failed\$/\1 \2/p" "target/test-$name.log" | tail -n 1)
    good=${line% *}
    bad=${line#* }
    if [ -z "$line" ] || { [ "$status" != 0 ] && [ "$bad" = 0 ]; }; then
        good=${good:-0}
        bad=1
    fi
    passed=$((passed + good))
    failed=$((failed + bad))
    echo "$name: $good passed, $bad failed"
    [ "$bad" = 0 ] || cat "target/test-$name.log"
}

suite api sh docs/check-api.sh
suite c sh tests/c/run.sh
suite rust sh tests/rust/run.sh
suite program sh tests/program/run.sh
suite stale sh tests/stale/run.sh
if [ -n "${OPEN_EVENT_SRC:-}" ]; then
    suite compare ./compare.sh "$rounds"
else
    echo "compare: not run, since OPEN_EVENT_SRC names no folder"
fi
echo "$passed passed, $failed failed"
[ "$failed" = 0 ]
