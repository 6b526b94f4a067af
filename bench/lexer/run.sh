#!/bin/sh
# Times the lexer over two generated rule files of 16 MiB, against `wc -w` and a plain hand-written
# scanner in Rust (plain.rs), all on the same bytes in the same run. It prints the tables of
# RESULTS.md. It needs the toolchain's `rt`, and `rustc`, `awk` and GNU `time`.
#
#     sh bench/lexer/run.sh
set -eu
here=$(cd "$(dirname "$0")" && pwd)
root=$(cd "$here/../.." && pwd)
work=$(mktemp -d "${TMPDIR:-/tmp}/bench_lexer.XXXXXX")
trap 'rm -rf "$work"' EXIT
trap 'exit 1' HUP INT TERM

for kind in chain base; do
    sh "$here/generate.sh" "$kind" "$work/$kind.m"
done
rustc -O -o "$work/plain" "$here/plain.rs" 2>"$work/rustc.log" || { cat "$work/rustc.log" >&2; exit 1; }

# The lexer runs in a program of its own, proved and built in a copy of the repository.
sh "$root/bench/copied.sh" "$work/repository" m_places m_fixed m_text m_lexer
driver=$work/repository/crates/bench_lexer
mkdir -p "$driver/src"
echo "bench_lexer: m_lexer m_places anyhow" >>"$work/repository/crates.txt"
cat >"$driver/src/main.rt" <<'DRIVER'
//! Runs the lexer five times over a file, and prints the count of tokens and the microseconds.
#![tactic(auto)]

use anyhow::{Result, ensure};
use m_lexer::lex;
use m_places::limits::FILE_BYTES;
use std::time::Instant;
use std::{env, fs};

fn main(rt: HostRuntime) -> Result<()> {
    for path in env::args(&rt)?.skip(1) {
        let bytes = fs::read(&rt, path.as_str())?;
        ensure!(bytes.len() as u64 <= FILE_BYTES, "the file is too long");
        for _ in 0..5 {
            let start = Instant::now(&rt)?;
            let tokens = lex(rt.alloc(), &bytes, 0);
            let took = start.elapsed(&rt)?.as_micros();
            let count = match tokens {
                Ok(tokens) => tokens.len(),
                Err(_) => 0,
            };
            println!(rt; "{count} {took}")?;
        }
    }
    Ok(())
}
DRIVER
(cd "$driver" && sh "$root/bench/built.sh" >"$work/rt.log" 2>&1) || { cat "$work/rt.log" >&2; exit 1; }

# The least time of a program's five runs in seconds, its megabytes a second, and its peak memory.
row() {
    name=$1
    file=$2
    shift 2
    /usr/bin/time -f '%M' -o "$work/peak" "$@" "$file" >"$work/times"
    awk -v name="$name" -v size="$(wc -c <"$file")" -v peak="$(cat "$work/peak")" -v to="$work/best" '
        NR == 1 || $2 < best { best = $2; count = $1 }
        END {
            printf "| %s | %d | %.3f | %.0f | %.0f |\n", name, count, best / 1e6, size / best, peak / 1024
            print best >> to
        }' "$work/times"
}

cat >"$work/words" <<'WORDS'
#!/bin/sh
# `wc -w` five times: the words and the microseconds.
for _ in 1 2 3 4 5; do
    start=$(date +%s%N)
    count=$(wc -w <"$1")
    end=$(date +%s%N)
    echo "$count $(((end - start) / 1000))"
done
WORDS

for kind in chain base; do
    echo "### $kind.m, $(wc -c <"$work/$kind.m") bytes"
    echo
    echo '| Program | Tokens or words | Seconds | MB/s | Peak MiB |'
    echo '|---|---|---|---|---|'
    : >"$work/best"
    row 'the lexer' "$work/$kind.m" "$driver/out/bench_lexer"
    row 'plain scanner' "$work/$kind.m" "$work/plain"
    row '`wc -w`' "$work/$kind.m" sh "$work/words"
    echo
    awk -v kind="$kind" 'NR == 1 { lexer = $1 } NR == 2 { printf "figure lexer.%s_to_plain_scanner %.3g <=4\n", kind, lexer / $1 }' "$work/best"
done
