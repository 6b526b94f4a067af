#!/bin/sh
# Times the reading of households and tables against a plain hand-written reader in Rust (plain.rs) with the
# same checks, on the same bytes in the same run. It prints the tables of RESULTS.md. It needs the
# toolchain's `rt`, and `rustc`, `awk`, GNU `time` and `valgrind`, which counts instructions: what else runs on the machine
# doesn't change these.
#
#     sh bench/household/run.sh
set -eu
here=$(cd "$(dirname "$0")" && pwd)
root=$(cd "$here/../.." && pwd)
work=$(mktemp -d "${TMPDIR:-/tmp}/bench_household.XXXXXX")
trap 'rm -rf "$work"' EXIT
trap 'exit 1' HUP INT TERM

for rows in 50000 100000; do
    for kind in household table; do
        sh "$here/generate.sh" "$kind" "$rows" "$work/$kind.$rows.csv"
    done
done
rustc -O -o "$work/plain" "$here/plain.rs" 2>"$work/rustc.log" || { cat "$work/rustc.log" >&2; exit 1; }

# The reader runs in a program of its own, proved and built in a copy of the repository.
sh "$root/bench/copied.sh" "$work/repository" household
driver=$work/repository/crates/bench_household
mkdir -p "$driver/src" "$driver/proofs/inputs_of"
echo 'bench_household: household m_names m_places observables anyhow' >>"$work/repository/crates.txt"
cat >"$driver/proofs/inputs_of/Invariants.antt" <<'INVARIANTS'
use Rattle.std.proofs.Common.{◌≡◌, take}
use Rattle.observables.specs.Inputs.{codes_of}
use Rattle.bench_household.proofs.inputs_of.Given as goal

abbrev pub invariant-loop-name : goal.invariant-loop-name
invariant-loop-name l = codes_of l.inputs.items ≡ take l.name-index l.names
INVARIANTS
cat >"$driver/src/main.rt" <<'DRIVER'
//! Reads a household or a table five times, and prints the count of rows and the microseconds.
#![tactic(auto)]

ghost use Rattle.std.specs.Prelude.{◌≡◌, IfOk};
ghost use Rattle.observables.specs.Inputs.{codes_of};

use anyhow::Result;
use household::{Codes, read_household, read_table};
use m_names::Names;
use m_places::Name;
use observables::{Coded, InputType};
use std::alloc::{AllocError, Global};
use std::thread::Threads;
use std::time::Instant;
use std::{env, fs};

/// Inputs with these codes, which take each amount.
fn inputs_of(alloc: Global, names: &[Name]) -> Result<Vec<Coded>, AllocError>
    ensures { IfOk result (λ inputs. codes_of inputs.items ≡ names.now) }
{
    let mut inputs = Vec::new(alloc);
    for name in names {
        inputs.push(Coded {
            code: name.copy(alloc)?,
            kind: InputType::Any,
        })?;
    }
    Ok(inputs)
}

/// The codes of these names, and none where a name stands twice.
fn codes_of_names(alloc: Global, names: &[Name]) -> Result<Option<Codes>> {
    match Names::of(alloc, names) {
        Ok(_) => {
            let inputs = inputs_of(alloc, names)?;
            match u32::try_from(inputs.len()) {
                Ok(count) => Ok(Some(Codes::new(alloc, &inputs, count)?)),
                Err(_) => Ok(None),
            }
        }
        Err(_) => Ok(None),
    }
}

/// The codes C0 to C99999.
fn many_codes(alloc: Global) -> Result<Option<Codes>> {
    let mut names = Vec::new(alloc);
    for k in 0..100_000 {
        let code = format!(in alloc; "C{k}")?;
        names.push(Name::new(alloc, code.as_bytes())?)?;
    }
    codes_of_names(alloc, &names)
}

/// How many rows a household or a table has, and none where it is refused.
fn count_rows<R: Threads + Sync>(
    rt: &R,
    alloc: Global,
    kind: &str,
    bytes: &[u8],
    codes: &Codes,
) -> usize {
    if kind == "household" {
        match read_household(alloc, bytes, codes) {
            Ok(household) => household.pairs.as_slice().len(),
            Err(_) => 0,
        }
    } else {
        match read_table(rt, alloc, bytes, codes) {
            Ok(rows) => rows.as_slice().len(),
            Err(_) => 0,
        }
    }
}

fn main(rt: HostRuntime) -> Result<()> {
    let mut words = env::args(&rt)?.skip(1);
    let (Some(kind), Some(path)) = (words.next(), words.next()) else {
        return Ok(());
    };
    let bytes = fs::read(&rt, path.as_str())?;
    let Some(codes) = many_codes(rt.alloc())? else {
        return Ok(());
    };
    for _ in 0..5 {
        let start = Instant::now(&rt)?;
        let count = count_rows(&rt, rt.alloc(), kind.as_str(), &bytes, &codes);
        let took = start.elapsed(&rt)?.as_micros();
        println!(rt; "{count} {took}")?;
    }
    Ok(())
}
DRIVER
(cd "$driver" && sh "$root/bench/built.sh" >"$work/rt.log" 2>&1) || { cat "$work/rt.log" >&2; exit 1; }

# How many instructions a program carries out. (Counts run side by side, since nothing else that runs changes them.)
instructions() {
    valgrind --tool=cachegrind --cache-sim=no --cachegrind-out-file=/dev/null "$@" 2>&1 >/dev/null |
        awk '/I *refs/ { gsub(",", "", $NF); print $NF }'
}

# The least time of a program's five runs in milliseconds, its megabytes a second, the millions of instructions of one of them,
# the program's peak memory, and that memory for each byte read, the byte itself with it. Instructions and the last are less
# what the program has with an empty file of the kind.
row() {
    name=$1
    kind=$2
    file=$3
    shift 3
    case "$kind" in
    household) echo 'code,amount' >"$work/empty" ;;
    table) echo 'name' >"$work/empty" ;;
    esac
    /usr/bin/time -f '%M' -o "$work/least" "$@" "$kind" "$work/empty" >/dev/null
    /usr/bin/time -f '%M' -o "$work/peak" "$@" "$kind" "$file" >"$work/times"
    instructions "$@" "$kind" "$work/empty" >"$work/none.count" &
    instructions "$@" "$kind" "$file" >"$work/all.count"
    wait
    none=$(cat "$work/none.count")
    all=$(cat "$work/all.count")
    awk -v name="$name" -v size="$(wc -c <"$file")" -v peak="$(cat "$work/peak")" -v least="$(cat "$work/least")" \
        -v none="$none" -v all="$all" -v to="$work/all" '
        NR == 1 || $2 < best { best = $2; count = $1 }
        END {
            printf "| %s | %d | %.1f | %.0f | %.1f | %.0f | %.1f |\n", name, count, best / 1e3, size / best, (all - none) / 5e6,
                peak / 1024, (peak - least) * 1024 / size
            print all - none >> to
        }' "$work/times"
}

for kind in household table; do
    for rows in 50000 100000; do
        file=$work/$kind.$rows.csv
        echo "### A $kind of $rows rows, $(wc -c <"$file") bytes"
        echo
        echo '| Program | Rows | Milliseconds | MB/s | Million instructions | Peak MiB | Bytes of memory for a byte |'
        echo '|---|---|---|---|---|---|---|'
        : >"$work/all"
        row 'the proved reader' "$kind" "$file" "$driver/out/bench_household"
        row 'plain reader' "$kind" "$file" "$work/plain"
        echo
        awk -v name="${kind}_of_$rows" '
            NR == 1 { own = $1 }
            NR == 2 { printf "figure household.%s_instructions_to_plain_reader %.3g <=3\n", name, own / $1 }' "$work/all"
    done
done
