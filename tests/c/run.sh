#!/bin/sh
# The tests of the C library: every call (calls.c), the bounds against their table (bounds.c), the header and the example without warnings as C and as C++,
# a warning for an answer that is not used, and the example over an installed library that pkg-config and CMake find. What is missing on a machine of
# g++, clang, pkg-config and CMake is said, and counts as nothing.
set -u
cd "$(dirname "$0")/../.." || exit 2
./archive.sh || exit 1
archive=$PWD/target/staticlib/libmudcanvas.a
work=$(mktemp -d)
trap 'rm -rf "$work"' EXIT
passed=0
failed=0
cc=${CC:-gcc}
cxx=${CXX:-g++}
warn="-Wall -Wextra -Wconversion -Wpedantic -Wshadow -Werror"

# check NAME COMMAND..: one test, passed where the command's status is 0
check() {
    name=$1
    shift
    if "$@" >"$work/log" 2>&1; then
        passed=$((passed + 1))
    else
        failed=$((failed + 1))
        echo "c: $name"
        cat "$work/log"
    fi
}

# counted NAME COMMAND..: a program whose last line is `NAME: N passed, M failed`; one that ends without such a line has failed
counted() {
    name=$1
    shift
    "$@" >"$work/log" 2>&1
    line=$(sed -n "s/^$name: \([0-9]*\) passed, \([0-9]*\) failed\$/\1 \2/p" "$work/log")
    [ -n "$line" ] || line="0 1"
    passed=$((passed + ${line% *}))
    failed=$((failed + ${line#* }))
    grep -v "^$name: .* passed," "$work/log"
}

has() {
    command -v "$1" >/dev/null && return
    echo "c: without $1"
    return 1
}

# example COMPILER..: the example is compiled without warnings, runs and prints what it should
example() {
    rm -f "$work/bales"
    # shellcheck disable=SC2086
    "$@" $warn -Iinclude examples/bales.c -x none "$archive" -o "$work/bales" && prints "$work/bales"
}

prints() {
    "$1" >"$work/out" && diff "$work/out" tests/examples/stdout
}

# alone COMPILER..: the header is compiled by itself
alone() {
    # shellcheck disable=SC2086
    echo '#include "mudcanvas.h"' | "$@" $warn -Iinclude -fsyntax-only -
}

# shellcheck disable=SC2086
{
    check "calls.c is not compiled" "$cc" -std=c11 -O1 $warn -Iinclude tests/c/calls.c "$archive" -o "$work/calls"
    check "bounds.c is not compiled" "$cc" -std=c11 -O1 $warn -Iinclude tests/c/bounds.c "$archive" -o "$work/bounds"
}
[ ! -x "$work/calls" ] || counted calls "$work/calls"
[ ! -x "$work/bounds" ] || counted bounds "$work/bounds" rust/tests/bounds.txt
for std in c99 c11 c17; do check "the header as $std" alone "$cc" -std=$std -x c; done
check "the example as C" example "$cc" -std=c11 -O1
for compiler in "$cxx" clang++; do
    has "$compiler" || continue
    for std in c++11 c++17 c++20; do check "the header as $std by $compiler" alone "$compiler" -std=$std -Wold-style-cast -x c++; done
    check "the example as C++ by $compiler" example "$compiler" -std=c++11 -O1 -x c++
done
if has clang; then
    check "the header as C by clang" alone clang -std=c11 -x c
    check "the example as C by clang" example clang -std=c11 -O1
fi
printf '#include "mudcanvas.h"\nvoid f(void) { mudcanvas_count(NULL, 0); }\n' >"$work/unused.c"
check "an answer that is not used is not warned of" sh -c '"$0" -std=c11 -Iinclude -c "$1" -o /dev/null 2>&1 | grep -q unused' "$cc" "$work/unused.c"
check "a line of the header is longer than 80" sh -c '! grep -n ".\{81\}" include/mudcanvas.h'

# ---- installed, under a name with a space
there="$work/pre fix"
version=$(sed -n 's/^#define MUDCANVAS_VERSION "\(.*\)"$/\1/p' include/mudcanvas.h)
check "install.sh" ./install.sh "$there"
if has pkg-config; then
    export PKG_CONFIG_PATH="$there/lib/pkgconfig"
    check "pkg-config's version" pkg-config --exact-version="$version" mudcanvas
    check "the example by pkg-config" sh -c 'eval "$0" examples/bales.c $(pkg-config --cflags --libs mudcanvas) -o "$1/found"' "$cc" "$work"
    check "the example by pkg-config runs" prints "$work/found"
fi
if has cmake; then
    mkdir "$work/cmake"
    cat >"$work/cmake/CMakeLists.txt" <<END
cmake_minimum_required(VERSION 3.10)
project(example C)
find_package(mudcanvas ${version%.*} REQUIRED)
add_executable(bales "$PWD/examples/bales.c")
target_link_libraries(bales mudcanvas::mudcanvas)
END
    check "CMake finds it" cmake -S "$work/cmake" -B "$work/cmake/build" -DCMAKE_PREFIX_PATH="$there"
    check "the example by CMake" cmake --build "$work/cmake/build"
    check "the example by CMake runs" prints "$work/cmake/build/bales"
    sed -i 's/find_package(mudcanvas [0-9.]*/find_package(mudcanvas 99.0/' "$work/cmake/CMakeLists.txt"
    check "CMake takes another version" sh -c '! cmake -S "$0" -B "$0/other" -DCMAKE_PREFIX_PATH="$1"' "$work/cmake" "$there"
fi
echo "c: $passed passed, $failed failed"
[ "$failed" = 0 ]
