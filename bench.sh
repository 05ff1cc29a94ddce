#!/bin/sh
# Times of this library and of the Rust original: bench.sh prints them; bench.sh --write also puts the table and the plot into docs/.
# OPEN_EVENT_SRC names the folder `src` of open-event-format. With libroaring-dev and libsdsl-dev installed, PEERS=1 adds CRoaring and sdsl.
# ALIGN=1 puts each function of this library at a multiple of 64 bytes, for comparing two builds of it: else a short loop can take a fifth longer in one of
# them, with the same instructions, by where the linker puts it.
set -eu
cd "$(dirname "$0")"
./archive.sh
if ! (cd crates/bench_search && rt lib) >target/staticlib/bench-log 2>&1; then
    tail -n 20 target/staticlib/bench-log >&2
    exit 1
fi
cp crates/bench_search/out/libbench_search.a target/staticlib
MUDCANVAS_LIB_DIR=$PWD/target/staticlib
if [ -n "${ALIGN:-}" ]; then
    rm -rf "$MUDCANVAS_LIB_DIR/aligned"
    mkdir "$MUDCANVAS_LIB_DIR/aligned"
    (
        cd "$MUDCANVAS_LIB_DIR/aligned"
        ar x ../libmudcanvas.a
        ar x ../libbench_search.a
        for object in *.o; do
            objdump -h "$object" | sed -n 's/^ *[0-9]* \(\.text\.[^ ]*\) .*/--set-section-alignment=\1=64/p' | xargs objcopy "$object"
        done
        ar rcs libbench_search.a ./bench_search.o
        rm ./bench_search.o
        ar rcs libmudcanvas.a ./*.o
    )
    MUDCANVAS_LIB_DIR=$MUDCANVAS_LIB_DIR/aligned
fi
export MUDCANVAS_LIB_DIR
cd bench
cargo build --release --offline --quiet ${PEERS:+--features peers}
if [ "${1:-}" = --write ]; then
    KIT=$(rt version | cut -d" " -f1)
    export KIT
    exec target/release/bench --write ../docs
fi
exec target/release/bench
