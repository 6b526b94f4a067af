#!/bin/sh
# What register code takes: instructions, slots, stores and loads of the examples and of generated bases, and the times of `allocate` and of
# one run. It builds a program of its own in a copy of the repository, which proves the crates below it. It needs `rt` and Python.
#
#     sh bench/code/run.sh
set -eu
here=$(cd "$(dirname "$0")" && pwd)
root=$(cd "$here/../.." && pwd)
work=$(mktemp -d "${TMPDIR:-/tmp}/bench_code.XXXXXX")
trap 'rm -rf "$work"' EXIT
trap 'exit 1' HUP INT TERM
sh "$root/bench/copied.sh" "$work/repository" m_compile
echo "bench_code: m_places m_fixed observables flat_code reg_machine register_alloc rule_base code_file m_compile anyhow" >>"$work/repository/crates.txt"
bench=$work/repository/crates/bench_code
mkdir -p "$bench/src" "$bench/proofs/are_below"
cp "$here/main.rt.txt" "$bench/src/main.rt"
cp "$here/are_below.antt.txt" "$bench/proofs/are_below/Invariants.antt"
(cd "$bench" && sh "$root/bench/built.sh" >"$work/rt.log" 2>&1) || { cat "$work/rt.log" >&2; exit 1; }

(cd "$root" && sed 1d examples/impot2023/rules.list | xargs cat) >"$work/impot2023.m"
for n in 10000 100000; do python3 "$root/bench/flat/generate.py" "$n" 0 "$work/$n"; done
python3 "$root/bench/flat/generate.py" 10000 40 "$work/calls"
python3 "$here/measure.py" "$bench/out/bench_code" "$root" "$work"
