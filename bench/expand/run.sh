#!/bin/sh
# Counts instructions, times and memory of unrolling loops, over generated rules of 2,000,000 parts and of a tenth of that. It builds
# a program of its own in a copy of the repository, which proves the crates below it. It needs `rt`, Python, GNU `time` and
# `valgrind`.
#
#     sh bench/expand/run.sh
set -eu
here=$(cd "$(dirname "$0")" && pwd)
root=$(cd "$here/../.." && pwd)
work=$(mktemp -d "${TMPDIR:-/tmp}/bench_expand.XXXXXX")
trap 'rm -rf "$work"' EXIT
trap 'exit 1' HUP INT TERM
sh "$root/bench/copied.sh" "$work/repository" m_items index_expand
echo "bench_expand: m_places m_lexer m_ast m_items m_symbols index_expand anyhow" >>"$work/repository/crates.txt"
bench=$work/repository/crates/bench_expand
mkdir -p "$bench/src" "$bench/proofs/expanded"
cp "$here/main.rt.txt" "$bench/src/main.rt"
cp "$here/main.antt.txt" "$bench/proofs/expanded/Answers.antt"
(cd "$bench" && sh "$root/bench/built.sh" >"$work/rt.log" 2>&1) || { cat "$work/rt.log" >&2; exit 1; }

# The instructions of the program up to this step, in thousands. (Counts run side by side, since nothing else that runs changes them.)
instructions() {
    valgrind --tool=cachegrind --cache-sim=no --cachegrind-out-file=/dev/null "$bench/out/bench_expand" "$@" 2>&1 >/dev/null |
        awk '/I *refs/ { gsub(",", "", $NF); printf "%d", $NF / 1000 }'
}

# The most memory that the program holds, in KiB.
peak() {
    /usr/bin/time -f '%M' -o "$work/peak" "$bench/out/bench_expand" "$@" >/dev/null
    cat "$work/peak"
}

for kind in short sums long headers; do
    for size in 1 10; do
        file=$work/$kind$size.m
        python3 "$here/generate.py" "$kind" "$size" "$file"
        echo "### $kind, $size tenths, $(wc -c <"$file") bytes"
        echo
        for _ in 1 2 3; do
            echo "items, definitions, microseconds of expand: $("$bench/out/bench_expand" expand "$file")"
        done
        for step in items expand; do instructions "$step" "$file" >"$work/count.$step" & done
        wait
        for step in items expand; do
            echo "up to $step: $(cat "$work/count.$step") thousand instructions, $(peak "$step" "$file") KiB"
        done | tee "$work/counts.$size"
        echo
    done
    few=$(awk '{ n[NR] = $4 } END { print n[2] - n[1] }' "$work/counts.1")
    awk -v kind="$kind" -v few="$few" '{ n[NR] = $4 } END { printf "figure expand.%s_ten_times %.3g <=11\n", kind, (n[2] - n[1]) / few }' "$work/counts.10"
done
