#!/bin/sh
# Times `allocate` on tidy programs of 5,000,000 nodes, which the program of bench/tidy makes. It needs `rt` and Python.
#
#     sh bench/code/allocate.sh [NODES]
set -eu
here=$(cd "$(dirname "$0")" && pwd)
work=$(mktemp -d "${TMPDIR:-/tmp}/bench_allocate.XXXXXX")
trap 'rm -rf "$work"' EXIT
trap 'exit 1' HUP INT TERM
sh "$here/../tidy/build.sh" "$work"
python3 "$here/allocate.py" "$work/repository/crates/bench_tidy/out/bench_tidy" "${1-5000000}"
