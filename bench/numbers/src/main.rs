//! Times the operations on numbers beside the Rust that they port, on the same operands in one run.
//! Each figure is the least of 500 short runs, so that other work on the machine disturbs it little: nanoseconds for one operation with its
//! share of the loop. On both sides a number is an enum whose kind the compiler does not know, and a fault ends the loop.
use std::hint::black_box;
use std::time::Instant;

extern "C" {
    fn bench_add(n: u64, kind: u8, first: u64, second: u64, last: &mut u64) -> u64;
    fn bench_sub(n: u64, kind: u8, first: u64, second: u64, last: &mut u64) -> u64;
    fn bench_mul(n: u64, kind: u8, first: u64, second: u64, last: &mut u64) -> u64;
    fn bench_less(n: u64, kind: u8, second: u64, last: &mut u64) -> u64;
    fn bench_cast(n: u64, kind: u8, first: u64, last: &mut u64) -> u64;
}

const RUNS: usize = 500;
const TURNS: u64 = 200_000;
const INT: u8 = 1;
const SINT: u8 = 3;

/// A number of the reference, as far as these loops need it.
#[derive(Clone, Copy)]
enum VmValue {
    Int(i64),
    SInt(i32),
    Float(f64),
}

fn value(kind: u8, word: u64) -> VmValue {
    match kind {
        INT => VmValue::Int(word as i64),
        SINT => VmValue::SInt(word as i32),
        _ => VmValue::Float(f64::from_bits(word)),
    }
}

fn word(v: VmValue) -> u64 {
    match v {
        VmValue::Int(x) => x as u64,
        VmValue::SInt(x) => x as u32 as u64,
        VmValue::Float(x) => x.to_bits(),
    }
}

macro_rules! arithmetic {
    ($name:ident, $checked:ident, $op:tt) => {
        fn $name(a: VmValue, b: VmValue) -> Option<VmValue> {
            match (a, b) {
                (VmValue::Int(a), VmValue::Int(b)) => a.$checked(b).map(VmValue::Int),
                (VmValue::SInt(a), VmValue::SInt(b)) => a.$checked(b).map(VmValue::SInt),
                (VmValue::Float(a), VmValue::Float(b)) => Some(VmValue::Float(a $op b)),
                _ => None,
            }
        }
    };
}
arithmetic!(rust_add, checked_add, +);
arithmetic!(rust_sub, checked_sub, -);
arithmetic!(rust_mul, checked_mul, *);

fn rust_less(a: VmValue, b: VmValue) -> Option<bool> {
    let order = match (a, b) {
        (VmValue::Int(a), VmValue::Int(b)) => a.partial_cmp(&b),
        (VmValue::SInt(a), VmValue::SInt(b)) => a.partial_cmp(&b),
        (VmValue::Float(a), VmValue::Float(b)) => a.partial_cmp(&b),
        _ => None,
    };
    order.map(|o| o.is_lt())
}

fn least(mut run: impl FnMut(u64) -> u64, expected: u64) -> f64 {
    let mut best = f64::INFINITY;
    for _ in 0..RUNS {
        let start = Instant::now();
        let last = run(black_box(TURNS));
        best = best.min(start.elapsed().as_secs_f64() * 1e9 / TURNS as f64);
        assert_eq!(last, expected);
    }
    best
}

type Proved = unsafe extern "C" fn(u64, u8, u64, u64, &mut u64) -> u64;

/// One line: the proved loop and the Rust's, which must leave the same number.
fn pair(name: &str, proved: Proved, rust: fn(VmValue, VmValue) -> Option<VmValue>, kind: u8, first: u64, second: u64) {
    let (kind, first, second) = (black_box(kind), black_box(first), black_box(second));
    let mut acc = value(kind, first);
    for _ in 0..TURNS {
        acc = rust(acc, value(kind, second)).unwrap();
    }
    let expected = word(acc);
    let ours = least(
        |n| {
            let mut last = 0;
            assert_eq!(unsafe { proved(n, kind, first, second, &mut last) }, n);
            last
        },
        expected,
    );
    let theirs = least(
        |n| {
            let (mut acc, step) = (value(kind, first), black_box(value(kind, second)));
            for _ in 0..n {
                match rust(black_box(acc), step) {
                    Some(next) => acc = next,
                    None => break,
                }
            }
            word(acc)
        },
        expected,
    );
    line(name, ours, theirs);
}

fn line(name: &str, ours: f64, theirs: f64) {
    println!("{name:<40} {ours:>7.2} {theirs:>7.2}");
}

fn main() {
    println!("{:<40} {:>7} {:>7}", "ns for one operation", "proved", "Rust");
    pair("Int Add, in the type itself", bench_add, rust_add, INT, 7, 3);
    pair("SInt Add, by sign and magnitude", bench_add, rust_add, SINT, 7, 3);
    pair("Int Sub, in the type itself", bench_sub, rust_sub, INT, 7, 3);
    pair("SInt Sub, by sign and magnitude", bench_sub, rust_sub, SINT, 7, 3);
    pair("Int Mul, by sign and magnitude", bench_mul, rust_mul, INT, 1_234_567_890_123, u64::MAX);

    for (name, kind) in [("Int Less, in the type itself", INT), ("SInt Less, by sign and magnitude", SINT)] {
        let (kind, bound) = (black_box(kind), black_box(200_000u64));
        let mut expected = 0;
        for _ in 0..TURNS {
            expected += if expected < bound { 3 } else { 1 };
        }
        let ours = least(
            |n| {
                let mut last = 0;
                assert_eq!(unsafe { bench_less(n, kind, bound, &mut last) }, n);
                last
            },
            expected,
        );
        let theirs = least(
            |n| {
                let (mut acc, limit) = (0u64, black_box(value(kind, bound)));
                for _ in 0..n {
                    acc += if rust_less(black_box(value(kind, acc)), limit) == Some(true) { 3 } else { 1 };
                }
                acc
            },
            expected,
        );
        line(name, ours, theirs);
    }

    let start = black_box(1_234_567_890_123u64);
    let ours = least(
        |n| {
            let mut last = 0;
            assert_eq!(unsafe { bench_cast(n, black_box(INT), start, &mut last) }, n);
            last
        },
        start,
    );
    let theirs = least(
        |n| {
            let mut acc = start as i64;
            for _ in 0..n {
                acc = black_box(black_box(acc) as f64) as i128 as i64;
            }
            acc as u64
        },
        start,
    );
    line("Cast Int to Float and back, two casts", ours, theirs);
}
