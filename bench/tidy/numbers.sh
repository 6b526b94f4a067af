#!/bin/sh
# Times the numbering of 5,000,000 nodes by the table of common_terms and by an `IndexSet` of the kit, by turns, and takes their memory. The program is
# proved and built in a copy of the repository. It needs `rt`, Python and GNU `time`. With RLIBS=FOLDER it is built over libraries that were proved before.
#
#     sh bench/tidy/numbers.sh
set -eu
here=$(cd "$(dirname "$0")" && pwd)
root=$(cd "$here/../.." && pwd)
work=$(mktemp -d "${TMPDIR:-/tmp}/bench_numbers.XXXXXX")
trap 'rm -rf "$work"' EXIT
trap 'exit 1' HUP INT TERM
below="m_places m_fixed definedness observables flat_code common_terms"
mkdir -p "$work/crates/bench_numbers/src"
sh "$root/bench/copied.sh" "$work" $below
echo "bench_numbers: $below indexmap sha2 anyhow" >>"$work/crates.txt"
bench=$work/crates/bench_numbers
{ cat "$here/numbers.rt.txt" && echo && awk '/^fn units/ { on = 1 } /^fn add</ { on = 0 } on' "$here/main.rt.txt"; } >"$bench/src/main.rt"
(cd "$bench" && sh "$root/bench/built.sh" >"$work/rt.log" 2>&1) || { cat "$work/rt.log" >&2; exit 1; }
python3 "$here/numbers.py" "$bench/out/bench_numbers"
