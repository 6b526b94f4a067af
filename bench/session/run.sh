#!/bin/sh
# Times sessions over kept values. It needs ./build before and python3, and prints the table of RESULTS.md.
#
#     sh bench/session/run.sh [PROGRAM]
set -eu
here=$(cd "$(dirname "$0")" && pwd)
root=$(cd "$here/../.." && pwd)
work=$(mktemp -d "${TMPDIR:-/tmp}/bench_session.XXXXXX")
trap 'rm -rf "$work"' EXIT
trap 'exit 1' HUP INT TERM
python3 "$here/measure.py" "${1-$root/out/m_tax}" "$work"
