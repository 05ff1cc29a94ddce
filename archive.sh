#!/bin/sh
# archive.sh: proves the exported functions and writes them to target/staticlib/libmudcanvas.a, for C and Rust on x86-64 Linux.
# It does nothing where the archive was made of these very sources by this very kit. Contents are compared and not times, by the sums that stand beside the
# archive: a change that is undone is seen too, whatever time its file has.
set -eu
cd "$(dirname "$(readlink -f "$0")")"
if ! command -v rt >/dev/null; then
    echo "archive.sh: there is no command rt: the Rattle kit proves and compiles the library" >&2
    exit 2
fi
folder=target/staticlib
archive=$folder/libmudcanvas.a
sums=$folder/libmudcanvas.sums
mkdir -p "$folder"
# one call at a time writes the archive; the others wait for it
if command -v flock >/dev/null; then
    exec 9>target/lock
    flock 9
fi

# what the archive is made of, and the archive itself
crates="press $(sed -n 's/^press staticlib: //p' crates.txt)"
state() {
    rt version
    for crate in $crates; do grep -E "^$crate( staticlib)?:" crates.txt; done
    for crate in $crates; do find "crates/$crate/src" "crates/$crate/specs" "crates/$crate/proofs" -type f 2>/dev/null || :; done |
        LC_ALL=C sort | xargs sha256sum | sha256sum
    sha256sum <"$archive"
}

if [ -f "$archive" ] && [ -f "$sums" ] && [ "$(state)" = "$(cat "$sums")" ]; then exit 0; fi
echo "archive.sh: proving and compiling: half a minute, or a few minutes where nothing is proved yet" >&2
rm -f "$archive" "$sums"
if ! (cd crates/press && rt lib) >"$folder/log" 2>&1; then
    grep -Ev "^(library|statements|logic) " "$folder/log" | tail -n 20 >&2
    echo "archive.sh: not written; all that rt said is in $folder/log" >&2
    exit 1
fi
cp crates/press/out/libpress.a "$archive"
state >"$sums"
