#!/bin/sh
# Times tables of households against C for the same tables. It needs ./build before, gcc, taskset and python3, and prints the tables of RESULTS.md.
#
#     sh bench/batch/run.sh [PROGRAM [ROWS]]
set -eu
here=$(cd "$(dirname "$0")" && pwd)
root=$(cd "$here/../.." && pwd)
program=$(readlink -f "${1-$root/out/m_tax}")
work=$(mktemp -d "${TMPDIR:-/tmp}/bench_batch.XXXXXX")
trap 'rm -rf "$work"' EXIT
trap 'exit 1' HUP INT TERM
cd "$root"
python3 "$here/measure.py" "$program" "$work" ${2+"$2"}
python3 "$here/parts.py" "$program" "$work" ${2+"$2"}
