#!/bin/sh
# Times whole runs over generated rule bases in the administration's shape, of 1.6, 16 and 60 MB, against a plain scanner of their
# tokens. It needs ./build before, rustc and python3, and prints the table of RESULTS.md.
#
#     sh bench/language/run.sh
set -eu
here=$(cd "$(dirname "$0")" && pwd)
root=$(cd "$here/../.." && pwd)
work=$(mktemp -d "${TMPDIR:-/tmp}/bench_language.XXXXXX")
trap 'rm -rf "$work"' EXIT
trap 'exit 1' HUP INT TERM
rustc -O -o "$work/plain" "$root/bench/lexer/plain.rs" 2>"$work/rustc.log" || { cat "$work/rustc.log" >&2; exit 1; }
python3 "$here/measure.py" "$root/out/m_tax" "$work/plain" "$work" 1600000:1 16000000:1 60000000:4
