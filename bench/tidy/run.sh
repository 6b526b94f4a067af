#!/bin/sh
# Times making programs of 5,000,000 nodes tidy beside the plain scanner of bench/lexer, and counts their memory. It needs `rt`, rustc, Python
# and GNU `time` (build.sh).
#
#     sh bench/tidy/run.sh
set -eu
here=$(cd "$(dirname "$0")" && pwd)
work=$(mktemp -d "${TMPDIR:-/tmp}/bench_tidy.XXXXXX")
trap 'rm -rf "$work"' EXIT
trap 'exit 1' HUP INT TERM
sh "$here/build.sh" "$work"
rustc -O -o "$work/plain" "$here/../lexer/plain.rs" 2>"$work/rustc.log" || { cat "$work/rustc.log" >&2; exit 1; }
sh "$here/../lexer/generate.sh" chain "$work/chain.m"
python3 "$here/measure.py" "$work/repository/crates/bench_tidy/out/bench_tidy" "$work/plain" "$work/chain.m"
if [ -x "$here/../../out/m_tax" ]; then python3 "$here/nodes.py" "$here/../../out/m_tax" "$work"; fi
