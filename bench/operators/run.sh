#!/bin/sh
# Times each operator of m_fixed, and reading and writing an amount, against plain Rust, in one run on
# this machine, and prints tables of nanoseconds for one operation. With the top of an older clone as
# its argument it times that one too, by turns. Needs rt and rustc; leaves no files.
#
#   run.sh [OLDER_CLONE]
#
# Each operator is in a function of its own that is called by a pointer, so that it isn't inlined and none changes the code of another.
# Each program is built twice, the second time with an empty function before these, which moves each by 16 bytes: a processor of
# this kind takes longer over a jump that crosses a line of 32 bytes. The less counts. plain.rs is built with no such jump.
# With WORK set to a folder it builds there and keeps what it built.
set -eu
here=$(cd "$(dirname "$0")" && pwd)
top=$(cd "$here/../.." && pwd)
older=$(cd "${1:-$top}" && pwd)
work=${WORK:-$(mktemp -d)}
[ -n "${WORK:-}" ] || trap 'rm -rf "$work"' EXIT
trap 'exit 1' HUP INT TERM

# timer NAME TOP: builds the timing program over the m_fixed of a clone, in both places.
timer() {
    for place in near far; do
        mkdir -p "$work/$1.$place/crates/timer/src" "$work/$1.$place/crates/m_fixed"
        printf 'm_fixed:\ntimer: m_fixed\n' >"$work/$1.$place/crates.txt"
        (cd "$work/$1.$place/crates/m_fixed" && rm -rf src specs proofs)
        cp -r "$2/crates/m_fixed/src" "$2/crates/m_fixed/specs" "$2/crates/m_fixed/proofs" "$work/$1.$place/crates/m_fixed/"
        cat "$work/main.rt" "$work/$place.rt" >"$work/$1.$place/crates/timer/src/main.rt"
        kept=
        if [ -n "${KEPT-}" ] && [ "$2" = "$top" ]; then kept=$KEPT/operators.$place; fi
        (cd "$work/$1.$place/crates/timer" && KEPT=$kept ONLY_BUILD= sh "$here/../built.sh") >"$work/$1.$place.first" 2>"$work/rt.log" ||
            { tail -20 "$work/rt.log"; exit 1; }
    done
}

cat >"$work/main.rt" <<'PROGRAM'
//! Times a hundred thousand of each operator. Prints `NAME NANOSECONDS`, the least time.
#![tactic(auto)]

ghost use Rattle.std.specs.Prelude.{ℕ};

use m_fixed::{Amount, Op, Value, apply, read_amount, write_amount};
use std::alloc::{AllocError, Global};
use std::io;
use std::time::Instant;

fn next(state: u64) -> u64 {
    state.wrapping_mul(6_364_136_223_846_793_005).wrapping_add(1_442_695_040_888_963_407)
}

fn value(millionths: i128) -> Value {
    match Amount::new(millionths) {
        Some(amount) => Value::Num(amount),
        None => Value::Over,
    }
}

/// Amounts of up to 550,000 units.
fn usual(alloc: Global, seed: u64) -> Result<Vec<Value>, AllocError> {
    let mut all = Vec::new(alloc);
    let mut state = seed;
    for _ in 0..1_000 {
        state = next(state);
        all.push(value((state >> 24) as i128 - 549_755_813_888))?;
    }
    Ok(all)
}

/// Amounts of up to the greatest one, so many that the processor can't learn by heart which sums are over.
fn great(alloc: Global, seed: u64) -> Result<Vec<Value>, AllocError> {
    let mut all = Vec::new(alloc);
    let mut state = seed;
    for _ in 0..10_000 {
        state = next(state);
        let size = (state >> 1) as i128;
        all.push(value(if size % 2 == 0 { size } else { -size }))?;
    }
    Ok(all)
}

fn folded(total: u64, given: Value) -> u64 {
    match given {
        Value::Num(amount) => total.wrapping_add((amount.millionths().cast_unsigned() & 0xffff_ffff_ffff_ffff) as u64),
        Value::Undef | Value::Over => total.wrapping_add(1),
    }
}

OWN_RUNS

fn run_any(op: Op, xs: &[Value], ys: &[Value]) -> u64 {
    let mut total = 0;
    for _ in 0..100 {
        for (x, y) in xs.iter().zip(ys) {
            total = folded(total, apply(op, *x, *y, Value::Undef));
        }
    }
    total
}

/// The least time of the runs, in nanoseconds. The operator is known in the function that is timed; nothing is printed of none.
fn time_known(rt: &HostRuntime, op: Option<Op>, runs: u32, xs: &[Value], ys: &[Value]) -> io::Result<()> {
    let run = run_of(op);
    let mut best = u128::MAX;
    let mut total = 0;
    for _ in 0..runs {
        let start = Instant::now(rt)?;
        total ^= run(xs, ys);
        best = best.min(start.elapsed(rt)?.as_nanos());
    }
    if let Some(own) = op {
        println!(rt; "{own:?} {best} {total}")?;
    }
    Ok(())
}

/// The same where the operator is data.
fn time_data(rt: &HostRuntime, op: Op, runs: u32, xs: &[Value], ys: &[Value]) -> io::Result<()> {
    let mut best = u128::MAX;
    let mut total = 0;
    for _ in 0..runs {
        let start = Instant::now(rt)?;
        total ^= run_any(op, xs, ys);
        best = best.min(start.elapsed(rt)?.as_nanos());
    }
    println!(rt; "{op:?} {best} {total}")?;
    Ok(())
}

/// All operators, and none.
static KNOWN: [Option<Op>; 27] = [
    None, Some(Op::Add), Some(Op::Sub), Some(Op::Mul), Some(Op::Div), Some(Op::Neg), Some(Op::Eq), Some(Op::Ne), Some(Op::Lt), Some(Op::Le),
    Some(Op::Gt), Some(Op::Ge), Some(Op::And), Some(Op::Or), Some(Op::Not), Some(Op::Present), Some(Op::Abs), Some(Op::Positive),
    Some(Op::PositiveOrNull), Some(Op::Null), Some(Op::Arr), Some(Op::Inf), Some(Op::Max), Some(Op::Min), Some(Op::Truth), Some(Op::Choose),
    Some(Op::At),
];

static OPERATORS: [Op; 26] = [
    Op::Add, Op::Sub, Op::Mul, Op::Div, Op::Neg, Op::Eq, Op::Ne, Op::Lt, Op::Le, Op::Gt, Op::Ge, Op::And, Op::Or,
    Op::Not, Op::Present, Op::Abs, Op::Positive, Op::PositiveOrNull, Op::Null, Op::Arr, Op::Inf, Op::Max, Op::Min,
    Op::Truth, Op::Choose, Op::At,
];

fn all_known(rt: &HostRuntime, runs: u32, xs: &[Value], ys: &[Value]) -> io::Result<()> {
    for op in &KNOWN {
        time_known(rt, *op, runs, xs, ys)?;
    }
    Ok(())
}

fn all_data(rt: &HostRuntime, runs: u32, xs: &[Value], ys: &[Value]) -> io::Result<()> {
    for op in &OPERATORS {
        time_data(rt, *op, runs, xs, ys)?;
    }
    Ok(())
}

fn run_written(xs: &[Value], room: &mut [u8; 32]) -> u64 {
    let mut total = 0u64;
    for _ in 0..100 {
        for x in xs {
            if let Value::Num(amount) = x {
                total = total.wrapping_add(write_amount(*amount, room) as u64);
            }
        }
    }
    total
}

fn time_written(rt: &HostRuntime, xs: &[Value]) -> io::Result<()> {
    let mut best = u128::MAX;
    let mut total = 0;
    let mut room = [b'0'; 32];
    for _ in 0..50 {
        let start = Instant::now(rt)?;
        total ^= run_written(xs, &mut room);
        best = best.min(start.elapsed(rt)?.as_nanos());
    }
    let minus = room[0] == b'-';
    println!(rt; "write {best} {total} {minus}")?;
    Ok(())
}

fn texts(alloc: Global, xs: &[Value]) -> Result<Vec<Vec<u8>>, AllocError> {
    let mut all = Vec::new(alloc);
    for x in xs {
        let mut room = [0; 32];
        let mut text = Vec::new(alloc);
        if let Value::Num(amount) = x {
            let end = write_amount(*amount, &mut room);
            for i in 0..32 {
                if i < end {
                    text.push(room[i])?;
                }
            }
        }
        all.push(text)?;
    }
    Ok(all)
}

fn run_read(texts: &[Vec<u8>]) -> u64 {
    let mut total = 0u64;
    for _ in 0..100 {
        for text in texts {
            if let Ok(amount) = read_amount(text.as_slice()) {
                total = folded(total, Value::Num(amount));
            }
        }
    }
    total
}

fn time_read(rt: &HostRuntime, xs: &[Value]) -> io::Result<()> {
    let texts = texts(rt.alloc(), xs)?;
    let mut best = u128::MAX;
    let mut total = 0;
    for _ in 0..50 {
        let start = Instant::now(rt)?;
        total ^= run_read(texts.as_slice());
        best = best.min(start.elapsed(rt)?.as_nanos());
    }
    println!(rt; "read {best} {total}")?;
    Ok(())
}

fn main(rt: HostRuntime) -> io::Result<()> {
    let xs = usual(rt.alloc(), 1)?;
    let ys = usual(rt.alloc(), 2)?;
    all_known(&rt, 50, xs.as_slice(), ys.as_slice())?;
    all_data(&rt, 50, xs.as_slice(), ys.as_slice())?;
    time_written(&rt, xs.as_slice())?;
    time_read(&rt, xs.as_slice())?;
    println!(rt; "great 0 0")?;
    let xs = great(rt.alloc(), 1)?;
    let ys = great(rt.alloc(), 2)?;
    all_known(&rt, 5, xs.as_slice(), ys.as_slice())?;
    Ok(())
}
PROGRAM

# The operators, as functions that know theirs.
operators=$(sed -n 's/^    \([A-Z][A-Za-z]*\),$/\1/p' "$top/crates/m_fixed/src/operator.rt")
lower() { echo "$1" | tr A-Z a-z; }
for op in $operators; do
    cat <<RUN
fn run_$(lower "$op")(xs: &[Value], ys: &[Value]) -> u64 {
    let mut total = 0;
    for _ in 0..100 {
        for (x, y) in xs.iter().zip(ys) {
            total = folded(total, apply(Op::$op, *x, *y, Value::Undef));
        }
    }
    total
}

RUN
done >"$work/own_runs"
{
    echo 'fn run_own(op: Op) -> fn(&[Value], &[Value]) -> u64 {'
    echo '    match op {'
    for op in $operators; do echo "        Op::$op => run_$(lower "$op"),"; done
    echo '    }'
    echo '}'
} >>"$work/own_runs"
sed -i -e "/^OWN_RUNS$/{r $work/own_runs" -e 'd}' "$work/main.rt"
cat >"$work/near.rt" <<'RUN'

fn run_of(op: Option<Op>) -> fn(&[Value], &[Value]) -> u64 {
    match op {
        Some(own) => run_own(own),
        None => run_add,
    }
}
RUN
cat >"$work/far.rt" <<'RUN'

fn run_nothing(_xs: &[Value], _ys: &[Value]) -> u64 {
    0
}

fn run_of(op: Option<Op>) -> fn(&[Value], &[Value]) -> u64 {
    match op {
        Some(own) => run_own(own),
        None => run_nothing,
    }
}
RUN
timer new "$top"
if [ -n "${ONLY_BUILD-}" ]; then
    echo "built and kept"
    exit 1
fi
[ "$older" = "$top" ] || timer old "$older"
rustc -O -C llvm-args=-x86-branches-within-32B-boundaries -o "$work/plain" "$here/plain.rs"
for turn in 1 2 3 4 5; do
    "$work/plain" >"$work/plain.near.$turn"
    for place in near far; do
        [ "$older" = "$top" ] || "$work/old.$place/crates/timer/out/timer" >"$work/old.$place.$turn"
        "$work/new.$place/crates/timer/out/timer" >"$work/new.$place.$turn"
        [ "$older" != "$top" ] || cp "$work/new.$place.$turn" "$work/old.$place.$turn" # (there is no older one)
    done
done
python3 "$here/table.py" "$work"
