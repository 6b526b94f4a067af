#!/bin/sh
# Hostile inputs at full size: sh bench/load/run.sh [PROGRAM [WORD..]]
#
# Prints the table of RESULTS.md. PROGRAM is out/m_tax unless another one is named; it needs no more than 8 GB of memory and 1 GB in a
# folder for what is written. The status is 1 where a shape failed.
here=$(CDPATH= cd -- "$(dirname -- "$0")" && pwd -P) || exit 1
program=${1:-$here/../../out/m_tax}
[ $# -gt 0 ] && shift
room=$(mktemp -d) || exit 1
trap 'rm -rf "$room"' EXIT
trap 'exit 1' HUP INT TERM
python3 "$here/measure.py" "$program" "$room" "$@"
