#!/bin/sh
# Builds the program of this bench in a copy of the repository, which proves the crates below it: FOLDER/repository/crates/bench_tidy/out/bench_tidy.
# It needs `rt`. With RLIBS=FOLDER it is built over libraries that were proved before.
#
#     sh bench/tidy/build.sh FOLDER
set -eu
here=$(cd "$(dirname "$0")" && pwd)
root=$(cd "$here/../.." && pwd)
work=$1
sh "$root/bench/copied.sh" "$work/repository" m_places m_fixed definedness observables flat_code reg_machine register_alloc common_terms fold_terms dead_rules
uses="m_places m_fixed definedness observables flat_code reg_machine register_alloc common_terms fold_terms dead_rules indexmap sha2 anyhow"
echo "bench_tidy: $uses" >>"$work/repository/crates.txt"
bench=$work/repository/crates/bench_tidy
mkdir -p "$bench/src" "$bench/proofs/nodes_of" "$bench/proofs/program" "$bench/proofs/are_below"
cp "$here/main.rt.txt" "$bench/src/main.rt"
cp "$here/Lists.antt.txt" "$bench/proofs/Lists.antt"
echo "pub mod Lists" >"$bench/proofs/Lib.antt"
cp "$here/nodes_of.antt.txt" "$bench/proofs/nodes_of/Invariants.antt"
cp "$here/program.antt.txt" "$bench/proofs/program/Answers.antt"
cp "$here/are_below.antt.txt" "$bench/proofs/are_below/Invariants.antt"
(cd "$bench" && sh "$root/bench/built.sh" >"$work/rt.log" 2>&1) || { cat "$work/rt.log" >&2; exit 1; }
