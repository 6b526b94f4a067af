#!/bin/sh
# Times the order of definitions, over generated rules, in the ordinary stack of 8,192 KiB. It builds a
# program of its own in a copy of the repository, which proves the crates below it. It needs `rt`, Python, GNU `time` and `valgrind`.
#
#     sh bench/order/run.sh
set -eu
here=$(cd "$(dirname "$0")" && pwd)
root=$(cd "$here/../.." && pwd)
work=$(mktemp -d "${TMPDIR:-/tmp}/bench_order.XXXXXX")
trap 'rm -rf "$work"' EXIT
trap 'exit 1' HUP INT TERM
sh "$root/bench/copied.sh" "$work/repository" rule_base
echo "bench_order: m_places micro_m rule_order rule_base anyhow" >>"$work/repository/crates.txt"
bench=$work/repository/crates/bench_order
mkdir -p "$bench/src"
cp "$here/main.rt.txt" "$bench/src/main.rt"
(cd "$bench" && sh "$root/bench/built.sh" >"$work/rt.log" 2>&1) || { cat "$work/rt.log" >&2; exit 1; }

ulimit -s 8192

# The instructions of the program up to this step, in thousands. (Counts run side by side, since nothing else that runs changes them.)
instructions() {
    valgrind --tool=cachegrind --cache-sim=no --cachegrind-out-file=/dev/null "$bench/out/bench_order" "$@" 2>&1 >/dev/null |
        awk '/I *refs/ { gsub(",", "", $NF); printf "%d", $NF / 1000 }'
}

# Three runs of a number of definitions of a kind, and the memory that they hold.
timed() {
    python3 "$here/generate.py" "$1" "$2" "$work/$1$2"
    echo "### $1, $2 definitions"
    echo
    for _ in 1 2 3; do
        /usr/bin/time -f '%M KiB at the most' "$bench/out/bench_order" order "$work/$1$2"/*.m 2>&1
    done
    echo
}

# The instructions of each step for a number of definitions of a kind.
counts() {
    for step in base order; do instructions "$step" "$work/$1$2"/*.m >"$work/count.$step" & done
    wait
    for step in base order; do echo "up to $step: $(cat "$work/count.$step") thousand instructions"; done
    echo
}

for kind in chain sum dynamic ring; do
    for count in 10000 100000; do
        timed "$kind" "$count"
        counts "$kind" "$count" | tee "$work/counts.$count"
    done
    few=$(awk '/order/ { print $4 }' "$work/counts.10000")
    awk -v kind="$kind" -v few="$few" '/order/ { printf "figure order.%s_100000_to_10000_instructions %.3g <=11\n", kind, $4 / few }' "$work/counts.100000"
done
timed dynamic 300000
timed ring 200000
timed chain 1000000
