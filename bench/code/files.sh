#!/bin/sh
# Times `compile` and `exec`, and with the word `victims` counts stores and loads with other choices of a victim, which takes minutes and has no figure.
# It needs ./build before and python3, and prints a table for RESULTS.md.
#
#     sh bench/code/files.sh [PROGRAM [victims]]
set -eu
here=$(cd "$(dirname "$0")" && pwd)
root=$(cd "$here/../.." && pwd)
work=$(mktemp -d "${TMPDIR:-/tmp}/bench_code.XXXXXX")
trap 'rm -rf "$work"' EXIT
trap 'exit 1' HUP INT TERM
python3 "$here/files.py" "${1-$root/out/m_tax}" "$work"
[ $# -ge 2 ] || exit 0
echo
python3 "$here/victims.py" "$work/impots.code" "$work/impot2023.code" "$work/large_10000.code" "$work/large_100000.code"
