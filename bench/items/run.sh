#!/bin/sh
# Counts instructions, times and memory of reading rule files to items and of declaring their names, over generated bases of
# 1.6 and 16 MB in one file and of 64 MB in 64 files. It builds a program of its own in a copy of the repository, which proves the
# crates below it. It needs `rt`, Python, GNU `time` and `valgrind`.
#
#     sh bench/items/run.sh
set -eu
here=$(cd "$(dirname "$0")" && pwd)
root=$(cd "$here/../.." && pwd)
work=$(mktemp -d "${TMPDIR:-/tmp}/bench_items.XXXXXX")
trap 'rm -rf "$work"' EXIT
trap 'exit 1' HUP INT TERM
sh "$root/bench/copied.sh" "$work/repository" m_places m_fixed m_names m_text m_lexer m_ast m_terms m_items m_symbols
echo "bench_items: m_places m_lexer m_ast m_items m_symbols anyhow" >>"$work/repository/crates.txt"
bench=$work/repository/crates/bench_items
mkdir -p "$bench/src"
cp "$here/main.rt.txt" "$bench/src/main.rt"
(cd "$bench" && sh "$root/bench/built.sh" >"$work/rt.log" 2>&1) || { cat "$work/rt.log" >&2; exit 1; }
python3 "$here/generate.py" 1600000 1 "$work/small"
python3 "$here/generate.py" 16000000 1 "$work/great"
python3 "$here/generate.py" 64000000 64 "$work/many"

# The instructions of the program up to this step, in thousands. (Counts run side by side, since nothing else that runs changes them.)
instructions() {
    valgrind --tool=cachegrind --cache-sim=no --cachegrind-out-file=/dev/null "$bench/out/bench_items" "$@" 2>&1 >/dev/null |
        awk '/I *refs/ { gsub(",", "", $NF); printf "%d", $NF / 1000 }'
}

# The most memory that the program holds, in KiB.
peak() {
    /usr/bin/time -f '%M' -o "$work/peak" "$bench/out/bench_items" "$@" >/dev/null
    cat "$work/peak"
}

for kind in small great many; do
    echo "### $kind, $(cat "$work/$kind"/*.m | wc -c) bytes"
    echo
    for _ in 1 2 3; do
        echo "tokens, items, names, microseconds of lex, parse, declare: $("$bench/out/bench_items" declare "$work/$kind"/*.m)"
    done
    if [ "$kind" != many ]; then
        for step in lex parse declare; do instructions "$step" "$work/$kind"/*.m >"$work/count.$step" & done
        wait
        for step in lex parse declare; do echo "up to $step: $(cat "$work/count.$step") thousand instructions"; done | tee "$work/counts"
        awk -v kind="$kind" '{ n[NR] = $4 } END { printf "figure items.%s_to_lex %.3g <=3.5\n", kind, n[3] / n[1] }' "$work/counts"
    fi
    echo "peak: $(peak lex "$work/$kind"/*.m) KiB with lex alone, $(peak declare "$work/$kind"/*.m) KiB with all"
    echo
done
