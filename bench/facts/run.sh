#!/bin/sh
# Times `facts` against `lint`, of examples/impot2023 and of 100,000 rules. It needs ./build before, and python3, and prints the tables of RESULTS.md.
#
#     sh bench/facts/run.sh
set -eu
here=$(cd "$(dirname "$0")" && pwd)
root=$(cd "$here/../.." && pwd)
work=$(mktemp -d "${TMPDIR:-/tmp}/bench_facts.XXXXXX")
trap 'rm -rf "$work"' EXIT
trap 'exit 1' HUP INT TERM
cd "$root"
python3 "$here/measure.py" "${M_TAX:-$root/out/m_tax}" "${M_SURVEY:-$root/out/m_survey}" "$work"
