#!/bin/sh
# Generates the rule bases and households, and measures m_tax and the plain interpreter on them.
#
#   run.sh [PROGRAM]
#
# PROGRAM is the built m_tax; `rt run` in crates/m_tax leaves it in crates/m_tax/out.
set -e
here=$(dirname "$(readlink -f "$0")")
program=$(readlink -f "${1:-$here/../../crates/m_tax/out/m_tax}")
[ -x "$program" ] || { echo "no program at $program: call rt run in crates/m_tax" >&2; exit 1; }
folder=$(mktemp -d)
trap 'rm -rf "$folder"' EXIT
trap 'exit 1' HUP INT TERM
sizes="1000 10000 100000"
for n in $sizes; do
    python3 "$here/generate.py" "$n" "$folder/$n"
done
python3 "$here/measure.py" "$program" "$folder" $sizes
