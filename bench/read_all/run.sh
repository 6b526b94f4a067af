#!/bin/sh
# Times the reading of four rule files of 16 MB on all processors, on one, and by a run on each at once, and compares what they print.
# It needs ./build before, python3, taskset and GNU `time`, and a machine that does nothing else.
#
#     sh bench/read_all/run.sh [PROGRAM]
set -eu
here=$(cd "$(dirname "$0")" && pwd)
root=$(cd "$here/../.." && pwd)
work=$(mktemp -d "${TMPDIR:-/tmp}/bench_read_all.XXXXXX")
trap 'rm -rf "$work"' EXIT
trap 'exit 1' HUP INT TERM
python3 "$here/measure.py" "${1-$root/out/m_tax}" "$work"
