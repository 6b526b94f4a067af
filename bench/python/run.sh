#!/bin/sh
# Times a million households by `.batch` of python/vodmejka against the command alone, and then frames, files and reforms, where a python3 has pandas. It
# needs ./build before and python3.
#
#     sh bench/python/run.sh [PROGRAM [ROWS]]
set -eu
here=$(cd "$(dirname "$0")" && pwd)
root=$(cd "$here/../.." && pwd)
program=$(readlink -f "${1-$root/out/m_tax}")
work=$(mktemp -d "${TMPDIR:-/tmp}/bench_python.XXXXXX")
trap 'rm -rf "$work"' EXIT
trap 'exit 1' HUP INT TERM
cd "$root"
python3 -B "$here/measure.py" "$program" "$work" ${2+"$2"}
for python in python3 /usr/bin/python3; do
    if "$python" -c 'import pandas' 2>/dev/null; then
        "$python" -B "$here/frames.py" "$program" "$work" ${2+"$2"}
        exit
    fi
done
echo "frames: not run: there is no pandas"
