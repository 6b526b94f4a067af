#!/bin/sh
# Measures tokens to terms over generated rule files, each read three times in one run: 4 MB in all, and 40 MB. It builds a program of
# its own in a copy of the repository, which proves the crates below it, and prints a row for each kind of file. It needs the
# toolchain's `rt`, and `python3`, `awk`, GNU `time` and `valgrind`, which counts instructions: what else runs on the machine doesn't
# change these. The files of 40 MB take 3 GB of memory.
#
#     sh bench/terms/run.sh
set -eu
here=$(cd "$(dirname "$0")" && pwd)
root=$(cd "$here/../.." && pwd)
work=$(mktemp -d "${TMPDIR:-/tmp}/bench_terms.XXXXXX")
trap 'rm -rf "$work"' EXIT
trap 'exit 1' HUP INT TERM
sh "$root/bench/copied.sh" "$work/repository" m_places m_fixed m_text m_lexer m_ast m_terms
echo "bench_terms: m_terms m_lexer m_ast m_places anyhow" >>"$work/repository/crates.txt"
driver=$work/repository/crates/bench_terms
mkdir -p "$driver/src"
cp "$here/main.rt.txt" "$driver/src/main.rt"
(cd "$driver" && sh "$root/bench/built.sh" >"$work/rt.log" 2>&1) || { cat "$work/rt.log" >&2; exit 1; }
program=$driver/out/bench_terms

# Millions of instructions of the program with one file, into a file. These counts run side by side, since nothing else that runs changes them.
instructions() {
    valgrind --tool=cachegrind --cache-sim=no --cachegrind-out-file=/dev/null "$program" "$1" "$2" 2>&1 >/dev/null |
        awk '/I *refs/ { gsub(",", "", $NF); printf "%.0f", $NF / 1e6 }' >"$3"
}

# Peak memory in KiB of the program with a file three times, whose lines go to a file.
peak() {
    /usr/bin/time -f '%M' -o "$work/peak" "$program" "$1" "$2" "$2" "$2" >"$work/$1.lines"
    cat "$work/peak"
}

echo '| File, three times | MB in all | Tokens | Terms | `lex` | reading | `lex`, million instructions |' \
    'reading, million instructions | held by the trees for a byte |'
echo '|---|---|---|---|---|---|---|---|---|'
for kind in dense base nests; do
    for room in 1333333 13333333; do
        python3 "$here/generate.py" "$kind" "$room" "$work/$kind$room.m"
        for step in lex read; do instructions "$step" "$work/$kind$room.m" "$work/$step$room" & done
    done
    wait
    for room in 1333333 13333333; do
        file=$work/$kind$room.m
        lexed=$(cat "$work/lex$room")
        read=$(cat "$work/read$room")
        least=$(peak lex "$file")
        most=$(peak read "$file")
        awk -v kind="$kind" -v size="$(wc -c <"$file")" -v lexed="$lexed" -v read="$read" -v least="$least" -v most="$most" '
            { tokens += $1; terms = $2; lex += $3; reading += $4 }
            END {
                printf "| %s | %.1f | %d | %d | %.2f s | %.2f s | %d | %d | %.1f |\n", kind, 3 * size / 1e6, tokens, terms,
                    lex / 1e6, reading / 1e6, lexed, read - lexed, (most - least) * 1024 / (3 * size)
                printf "figure terms.%s_of_%d_MB_reading_to_lex %.3g <=3\n", kind, 3 * size / 1e6, (read - lexed) / lexed
            }' "$work/read.lines"
    done
done
