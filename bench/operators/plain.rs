// The plain i128 operation for each operator, with its overflow test: what a program would compute
// that knew nothing of undefined values. Prints `NAME NANOSECONDS`, the least time of a
// hundred thousand operations in fifty tries.
use std::hint::black_box;
use std::time::Instant;

const COUNT: usize = 1_000;
const TURNS: usize = 100;

fn next(state: u64) -> u64 {
    state.wrapping_mul(6_364_136_223_846_793_005).wrapping_add(1_442_695_040_888_963_407)
}

fn amounts(seed: u64) -> Vec<i128> {
    let mut state = seed;
    (0..COUNT)
        .map(|_| {
            state = next(state);
            (state >> 24) as i128 - (1 << 39)
        })
        .collect()
}

fn folded(total: u64, result: Option<i128>) -> u64 {
    match result {
        Some(n) => total.wrapping_add(n as u64),
        None => total.wrapping_add(1),
    }
}

#[inline(never)]
fn timed(name: &str, xs: &[i128], ys: &[i128], operation: impl Fn(i128, i128) -> Option<i128>) {
    let mut best = u128::MAX;
    for _ in 0..50 {
        let start = Instant::now();
        let mut total = 0;
        for _ in 0..TURNS {
            for (x, y) in xs.iter().zip(ys) {
                total = folded(total, operation(black_box(*x), black_box(*y)));
            }
        }
        best = best.min(start.elapsed().as_nanos());
        black_box(total);
    }
    println!("{name} {best}");
}

fn truth(test: bool) -> Option<i128> {
    Some(if test { 1_000_000 } else { 0 })
}

/// Digits by `parse::<i64>`, and digits written into a room from its end.
fn timed_texts(xs: &[i128]) {
    let texts: Vec<String> = xs.iter().map(|x| x.to_string()).collect();
    let (mut write, mut read) = (u128::MAX, u128::MAX);
    for _ in 0..50 {
        let start = Instant::now();
        let mut total = 0u64;
        for _ in 0..TURNS {
            for x in xs {
                total = total.wrapping_add(written(black_box(*x as i64)));
            }
        }
        write = write.min(start.elapsed().as_nanos());
        black_box(total);
        let start = Instant::now();
        let mut total = 0;
        for _ in 0..TURNS {
            for text in &texts {
                total = folded(total, black_box(text).parse::<i64>().ok().map(i128::from));
            }
        }
        read = read.min(start.elapsed().as_nanos());
        black_box(total);
    }
    println!("write {write}\nread {read}");
}

fn written(x: i64) -> u64 {
    let mut room = [0u8; 20];
    let mut at = 20;
    let mut rest = x.unsigned_abs();
    loop {
        at -= 1;
        room[at] = b'0' + (rest % 10) as u8;
        rest /= 10;
        if rest == 0 {
            break;
        }
    }
    black_box(&room);
    20 - at as u64
}

fn main() {
    let (xs, ys) = (amounts(1), amounts(2));
    timed("Add", &xs, &ys, |x, y| x.checked_add(y));
    timed("Sub", &xs, &ys, |x, y| x.checked_sub(y));
    timed("Mul", &xs, &ys, |x, y| Some(x.checked_mul(y)? / 1_000_000));
    timed("Div", &xs, &ys, |x, y| x.checked_mul(1_000_000)?.checked_div(y));
    timed("Neg", &xs, &ys, |x, _| x.checked_neg());
    timed("Eq", &xs, &ys, |x, y| truth(x == y));
    timed("Ne", &xs, &ys, |x, y| truth(x != y));
    timed("Lt", &xs, &ys, |x, y| truth(x < y));
    timed("Le", &xs, &ys, |x, y| truth(x <= y));
    timed("Gt", &xs, &ys, |x, y| truth(x > y));
    timed("Ge", &xs, &ys, |x, y| truth(x >= y));
    timed("And", &xs, &ys, |x, y| truth(x != 0 && y != 0));
    timed("Or", &xs, &ys, |x, y| truth(x != 0 || y != 0));
    timed("Not", &xs, &ys, |x, _| truth(x == 0));
    timed("Present", &xs, &ys, |_, _| truth(true));
    timed("Abs", &xs, &ys, |x, _| x.checked_abs());
    timed("Positive", &xs, &ys, |x, _| truth(x > 0));
    timed("PositiveOrNull", &xs, &ys, |x, _| truth(x >= 0));
    timed("Null", &xs, &ys, |x, _| truth(x == 0));
    timed("Arr", &xs, &ys, |x, _| {
        let moved = if x < 0 { x.checked_sub(500_050)? } else { x.checked_add(500_050)? };
        Some(moved / 1_000_000 * 1_000_000)
    });
    timed("Inf", &xs, &ys, |x, _| Some(x.checked_add(1)?.div_euclid(1_000_000) * 1_000_000));
    timed("Max", &xs, &ys, |x, y| Some(x.max(y)));
    timed("Min", &xs, &ys, |x, y| Some(x.min(y)));
    timed("Truth", &xs, &ys, |x, _| truth(x != 0));
    timed("Choose", &xs, &ys, |x, y| Some(if x != 0 { y } else { x }));
    timed("At", &xs, &ys, |x, y| truth(x / 1_000_000 == y / 1_000_000));
    timed_texts(&xs);
}
