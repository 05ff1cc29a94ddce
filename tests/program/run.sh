#!/bin/sh
# Runs ./bales as a user would: an index, a missing file, a folder, files and filters at their limits; what it prints on both outputs, and its status.
set -u
cd "$(dirname "$0")/../.." || exit 2
here=$PWD
work=$(mktemp -d)
trap 'rm -rf "$work"' EXIT
passed=0
failed=0

pass() {
    passed=$((passed + 1))
}
fail() {
    failed=$((failed + 1))
    echo "program: $1"
}

# says NAME TEXT: the last run said TEXT on standard error, and nothing else; no TEXT is nothing at all
says() {
    printf '%s' "${2:+bales: $2
}" >"$work/said"
    if cmp -s "$work/error" "$work/said"; then pass; else fail "$1: it said $(cat "$work/error"), not $2"; fi
}

# expect NAME STATUS TEXT INDEX FILTER SAID: TEXT and FILTER are files
expect() {
    ./bales "$4" <"$5" >"$work/out" 2>"$work/error"
    status=$?
    if [ "$status" = "$2" ] && cmp -s "$work/out" "$3"; then pass; else fail "$1: status $status, not $2, or another text than $3"; fi
    says "$1" "$6"
}

# refused NAME NUMBER INDEX FILTER SAID: FILTER is text
refused() {
    printf "$4" >"$work/text"
    echo "refused,$2" >"$work/expected"
    expect "$1" 1 "$work/expected" "$3" "$work/text" "refused with $2: $5"
}

# not_run NAME SAID COMMAND..: nothing is printed on standard output, and the status is 2
not_run() {
    name=$1
    said=$2
    shift 2
    "$@" >"$work/out" 2>"$work/error"
    status=$?
    if [ "$status" = 2 ] && [ ! -s "$work/out" ]; then pass; else fail "$name: status $status, not 2, or something was printed"; fi
    says "$name" "$said"
}

# the first run says that it proves and builds
./bales crates/bales/data/bales.idx <crates/bales/stdin >/dev/null
example=crates/bales/data/bales.idx
none=$work/none
line="A line is take, and, or or without, a comma, and a value of 1 to 20 digits below 2^64"
unread=", which can't be read and counts as empty: its bytes end inside a field or block"
expect "the example" 0 crates/bales/stdout $example crates/bales/stdin ""
expect "at both limits" 0 crates/bales_limits/stdout crates/bales_limits/data/bales.idx crates/bales_limits/stdin ""
expect "a long file" 1 crates/bales_long/stdout crates/bales_long/data/bales.idx crates/bales_long/stdin \
    "refused with 1: the index crates/bales_long/data/bales.idx has more than 8,192 bytes"
expect "a long filter" 1 crates/bales_long_filter/stdout crates/bales_long_filter/data/bales.idx crates/bales_long_filter/stdin \
    "refused with 1: the filter has more than 8,192 bytes"
expect "both too long" 1 crates/bales_long_both/stdout crates/bales_long_both/data/bales.idx crates/bales_long_both/stdin \
    "refused with 1: the index crates/bales_long_both/data/bales.idx has more than 8,192 bytes
bales: refused with 1: the filter has more than 8,192 bytes"
refused "a malformed line, an index that is refused too" 8 crates/bales_refused/data/bales.idx 'take,3\nwithout;7\n' "line 2 of the filter is malformed: \`without;7\`. $line"
expect "a mistyped value" 1 crates/bales_missing_value/stdout crates/bales_missing_value/data/bales.idx crates/bales_missing_value/stdin \
    "refused with 11: line 2 of the filter, \`without,71\`, names a value that the index crates/bales_missing_value/data/bales.idx lacks"
refused "the first of two values that are missing" 11 $example 'take,3\nor,7\nand,007\nor,8\nor,7\nor,5\n' "line 4 of the filter, \`or,8\`, names a value that the index $example lacks"
refused "a missing value in a malformed filter" 8 $example 'take,5\nxor,7\n' "line 2 of the filter is malformed: \`xor,7\`. $line"
head -c 83 $example >"$work/cut"
refused "a missing value and a file cut short" 2 "$work/cut" 'take,5\n' "the index $work/cut: its bytes end inside a field or block"
refused "a file cut short" 2 "$work/cut" 'take,3\n' "the index $work/cut: its bytes end inside a field or block"
# one value with a run that ends at its start, with runs that touch, and a value twice
printf '\1\0\0\0\3\0\0\0\0\0\0\0\24\0\0\0\1\0\0\0\5\0\0\0\0\0\0\0\5\0\0\0\0\0\0\0' >"$work/empty_run"
printf '\1\0\0\0\3\0\0\0\0\0\0\0\44\0\0\0\2\0\0\0\0\0\0\0\0\0\0\0\3\0\0\0\0\0\0\0\3\0\0\0\0\0\0\0\5\0\0\0\0\0\0\0' >"$work/touching"
printf '\2\0\0\0\3\0\0\0\0\0\0\0\4\0\0\0\0\0\0\0\3\0\0\0\0\0\0\0\4\0\0\0\0\0\0\0' >"$work/twice"
refused "an empty run" 3 "$work/empty_run" 'take,3\n' "the index $work/empty_run: a run's end is not above its start"
refused "runs that touch" 4 "$work/touching" 'take,3\n' "the index $work/touching: a run's start is not above the previous end"
refused "a value twice" 5 "$work/twice" 'take,3\n' "the index $work/twice: a value is not above the previous one"
refused "no file" 2 "$none" 'take,3\n' "the index $none$unread"
refused "no file, an unfinished line" 8 "$none" 'take,3' "line 1 of the filter, \`take,3\`, does not end with a line feed"
refused "an unfinished last line" 8 $example 'take,3\nor,7\nand,3' "line 3 of the filter, \`and,3\`, does not end with a line feed"
refused "an unfinished last line that is malformed" 8 $example 'take,3\nxor,7' "line 2 of the filter is malformed: \`xor,7\`. $line"
refused "an unfinished last line after a malformed one" 8 $example 'tkae,3\nor,7' "line 1 of the filter is malformed: \`tkae,3\`. $line"
refused "the first of two malformed lines" 8 $example 'take,3\nor,7\n\nor,3\n, \nor,7\n' "line 3 of the filter is malformed: \`\`. $line"
refused "a value of 2^64" 8 $example 'take,18446744073709551615\nor,18446744073709551616\n' "line 2 of the filter is malformed: \`or,18446744073709551616\`. $line"
refused "a return before the line feed" 8 $example 'take,3\r\n' "line 1 of the filter is malformed: \`take,3\`. $line"
refused "a folder" 2 "$work" 'take,3\n' "the index $work$unread"
refused "a name like an option" 2 -n 'take,3\n' "the index -n$unread"
refused "a name that is a dash" 2 - 'take,3\n' "the index -$unread"
refused "an empty filter" 2 "$none" '' "the index $none$unread"

# ---- called by another name and from another folder, which is left as it was
ln -s "$here/bales" "$work/link"
mkdir "$work/elsewhere"
if (cd "$work/elsewhere" && ../link "$here/$example" <"$here/crates/bales/stdin") 2>&1 | cmp -s - crates/bales/stdout; then pass; else fail "through a symlink"; fi
if [ -z "$(ls -A "$work/elsewhere")" ] && [ ! -e "$work/target" ]; then pass; else fail "through a symlink: it left files behind"; fi

# ---- nothing is run
mkfifo "$work/pipe"
not_run "standard input as the index, from a file" "/dev/stdin is standard input, which is the filter: name a file of index bytes" sh -c './bales /dev/stdin <crates/bales/stdin'
not_run "standard input as the index, from a pipe" "/dev/stdin is standard input, which is the filter: name a file of index bytes" sh -c 'cat crates/bales/stdin | ./bales /dev/stdin'
not_run "the filter's own file" "crates/bales/stdin is standard input, which is the filter: name a file of index bytes" sh -c './bales crates/bales/stdin <crates/bales/stdin'
not_run "a pipe" "$work/pipe is a pipe or a device: name a file of index bytes" sh -c "./bales $work/pipe <crates/bales/stdin"
not_run "a device" "/dev/zero is a pipe or a device: name a file of index bytes" sh -c './bales /dev/zero <crates/bales/stdin'
not_run "no kit" "there is no command rt: the Rattle kit proves and builds the program" \
    sh -c "mkdir $work/bin && for tool in sh readlink dirname mktemp rm; do ln -s \$(command -v \$tool) $work/bin; done; PATH=$work/bin ./bales $example <crates/bales/stdin"
for words in "" "a b"; do
    # shellcheck disable=SC2086
    ./bales $words </dev/null >"$work/out" 2>"$work/error"
    if [ $? = 2 ] && [ ! -s "$work/out" ] && grep -q '^usage: bales INDEX < FILTER$' "$work/error"; then pass; else fail "arguments: $words"; fi
done
if ./bales --help </dev/null | grep -q '^usage: bales INDEX < FILTER$'; then pass; else fail "--help"; fi
echo "program: $passed passed, $failed failed"
[ "$failed" = 0 ]
