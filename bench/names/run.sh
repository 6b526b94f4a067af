#!/bin/sh
# Times names that collide under indexmap's default hasher against random ones, N of each.
#
#   run.sh [N [PROGRAM [OLDER_PROGRAM]]]
#
# A program of its own over m_names (main.rt.txt), proved and built in a copy of the repository, keeps and finds them.
# What both hashes take is counted in instructions (hash_price.py), of 20,000 names.
# With PROGRAM, the built m_tax, it times whole runs too, on files of N constants of these names, by turns with an older
# program: the time of the processor, user and system, the least of five runs. Needs rt, rustc, valgrind and python3.
set -eu
here=$(cd "$(dirname "$0")" && pwd)
root=$(cd "$here/../.." && pwd)
count=${1:-100000}
work=$(mktemp -d "${TMPDIR:-/tmp}/bench_names.XXXXXX")
trap 'rm -rf "$work"' EXIT
trap 'exit 1' HUP INT TERM
rustc -O -o "$work/names" "$here/names.rs"
"$work/names" "$count" "$work"

sh "$root/bench/copied.sh" "$work/repository" m_places m_names
echo "bench_names: m_places m_names indexmap anyhow" >>"$work/repository/crates.txt"
bench=$work/repository/crates/bench_names
mkdir -p "$bench/src"
cp "$here/main.rt.txt" "$bench/src/main.rt"
(cd "$bench" && sh "$root/bench/built.sh" >"$work/rt.log" 2>&1) || { cat "$work/rt.log" >&2; exit 1; }

# The least of twenty: microseconds of keeping the names and of finding each.
row() {
    for _ in 1 2 3 4; do "$bench/out/bench_names" "$1" "$work/$2/names.txt" "$work/$2/asked.txt"; done |
        awk -v name="$2 names, $1" '
            NR == 1 || $2 < keeping { keeping = $2 }
            NR == 1 || $3 < finding { finding = $3 }
            END { printf "| %s | %.1f | %.1f |\n", name, keeping / 1000, finding / 1000 }' | tee -a "$work/rows"
}
echo "| Names, hash | keeping, ms | finding each, ms |"
echo "|---|---:|---:|"
row keyed random
row keyed colliding
row default random

awk -F'|' 'NR == 1 { random = $3 } NR == 2 { printf "figure names.colliding_to_random %.3g <=2\n", $3 / random }' "$work/rows"
awk -F'|' 'NR == 1 { keyed = $4 } NR == 3 { printf "figure names.keyed_find_to_default %.3g <=1.15\n", keyed / $4 }' "$work/rows"
mkdir "$work/few"
"$work/names" 20000 "$work/few"
python3 "$here/hash_price.py" "$bench/out/bench_names" "$work/few/random/names.txt" "$work/few/random/asked.txt"
[ $# -ge 2 ] || exit 0
program=$(readlink -f "$2")
older=$(readlink -f "${3:-$2}")
python3 "$here/measure.py" "$program" "$older" "$work"
