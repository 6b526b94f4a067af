#!/bin/sh
# Compares the worked rows of crates/rows without failing calls with the reference implementation, which is in tests/second and
# needs no program. With words it does what tests/second/compare.py does with these: tests/second.sh PROGRAM [COUNT
# [SEED]] also compares a program with it on COUNT changed rows. The status is 0 where nothing differs.
cd "$(dirname "$0")/.." || exit 1
if ! command -v python3 >/dev/null 2>&1; then
    echo "second: not run: there is no python3"
    exit 0
fi
exec python3 tests/second/compare.py "$@"
