#!/bin/sh
# Computes a table of made-up households with tools/scale, by parts, on this machine. It needs ./build before, gcc and python3.
#
#     sh bench/scale/run.sh [HOUSEHOLDS]      3,800,000 by default; 38,000,000 need 12 GB of disk
set -eu
here=$(cd "$(dirname "$0")" && pwd)
root=$(cd "$here/../.." && pwd)
work=$(mktemp -d "${TMPDIR:-/tmp}/bench_scale.XXXXXX")
trap 'rm -rf "$work"' EXIT
trap 'exit 1' HUP INT TERM
python3 "$here/measure.py" "$root/out/m_survey" "$work" "${1-3800000}"
