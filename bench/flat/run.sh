#!/bin/sh
# Times the whole of `run` over bases in the shape of `large N`. It needs ./build before, and python3, and prints the table of RESULTS.md.
#
#     sh bench/flat/run.sh
set -eu
here=$(cd "$(dirname "$0")" && pwd)
root=$(cd "$here/../.." && pwd)
work=$(mktemp -d "${TMPDIR:-/tmp}/bench_flat.XXXXXX")
trap 'rm -rf "$work"' EXIT
trap 'exit 1' HUP INT TERM
python3 "$here/measure.py" "$root/out/m_tax" "$work"
