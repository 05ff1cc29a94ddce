#!/bin/sh
# compare.sh [ROUNDS] [--store FOLDER]: runs the library and the Rust original on the same inputs. It needs the Rattle kit, cargo (without
# network), and OPEN_EVENT_SRC: the folder `src` of open-event-format. It prints the inputs and runs of each call and ends with status 0 where
# there is no difference.
set -eu
cd "$(dirname "$0")"
if [ -z "${OPEN_EVENT_SRC:-}" ]; then
    echo "compare.sh: set OPEN_EVENT_SRC to the folder src of open-event-format" >&2
    exit 2
fi
./archive.sh
exec cargo run --quiet --release --offline --locked --manifest-path compare/Cargo.toml -- "$@"
