#!/bin/sh
# Each call for memory, open, read and write of each command failing in turn (failing.py). It needs ./build before, cc and python3.
#
#     sh bench/load/failing.sh [PROGRAM]
here=$(CDPATH= cd -- "$(dirname -- "$0")" && pwd -P) || exit 1
program=$(readlink -f "${1:-$here/../../out/m_tax}")
room=$(mktemp -d) || exit 1
trap 'rm -rf "$room"' EXIT
trap 'exit 1' HUP INT TERM
python3 "$here/failing.py" "$program" "$room"
