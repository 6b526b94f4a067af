#!/bin/sh
# Times `table` of m_survey against `batch` of m_tax, by turns, of 100,000 made-up households of examples/impot2023, on one processor and on all. It needs
# ./build before, gcc and python3, and prints the table of RESULTS.md.
#
#     sh bench/survey/run.sh
set -eu
here=$(cd "$(dirname "$0")" && pwd)
root=$(cd "$here/../.." && pwd)
work=$(mktemp -d "${TMPDIR:-/tmp}/bench_survey.XXXXXX")
trap 'rm -rf "$work"' EXIT
trap 'exit 1' HUP INT TERM
cd "$root"
gcc -O2 -o "$work/households" bench/scale/households.c
"$work/households" 100000 >"$work/table.csv"
python3 "$here/measure.py" "${M_TAX:-$root/out/m_tax}" "${M_SURVEY:-$root/out/m_survey}" "$work/table.csv"
