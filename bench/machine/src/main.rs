//! Times the machine beside the published Rust; README.md says how to run it and what is timed.

mod programs;

use model::Answer;
use programs::{PROGRAMS, Program};
use published::{Built, Ending};
use rl_vm::{CheckAnswer, Machine, RunAnswer, RunWork};
use std::hint::black_box;
use std::time::Instant;

const ROUNDS: usize = 5;
const BUDGET: usize = 100_000_000;
const ROOM: usize = 4_096;
const SHEET: &str = concat!(env!("CARGO_MANIFEST_DIR"), "/../../sheets/pickup.img");
const SHEET_RUNS: u32 = 100_000;

fn main() {
    let mut machine = Machine::new();
    println!(
        "{:<26} {:>12} {:>12} {:>12} {:>8}",
        "", "instructions", "ns, machine", "ns, Rust", "ratio"
    );
    for program in &PROGRAMS {
        program_line(program, &mut machine);
    }
    println!();
    sheet_lines(&mut machine);
}

/// Nanoseconds that it took.
fn timed(work: impl FnOnce()) -> f64 {
    let began = Instant::now();
    work();
    began.elapsed().as_secs_f64() * 1e9
}

/// Both machines on one image, turn by turn, and the least time of each for one instruction; the
/// machine alone where the published Rust stops in place of a value.
fn program_line(program: &Program, machine: &mut Machine) {
    let (name, image) = (program.name, program.image());
    let loaded = model::load(&image).expect("the image loads");
    let built = program.rust.then(|| Built::new(&loaded));
    let count = match &built {
        Some(built) => same_value(name, &image, built, machine),
        None => models_value(name, &image, machine),
    };
    let mut result = vec![0; ROOM];
    let (mut ours, mut theirs) = (f64::INFINITY, f64::INFINITY);
    for _ in 0..ROUNDS {
        ours = ours.min(timed(|| {
            black_box(machine.run(black_box(&image), BUDGET, &mut result));
        }));
        if let Some(built) = &built {
            theirs = theirs.min(timed(|| {
                black_box(black_box(built).run(ROOM));
            }));
        }
    }
    let (ours, theirs) = (ours / count as f64, theirs / count as f64);
    let beside = match built {
        Some(_) => format!("{theirs:>12.2} {:>8.2}", ours / theirs),
        None => format!("{:>12} {:>8}", "-", "-"),
    };
    println!("{name:<26} {count:>12} {ours:>12.2} {beside}");
}

/// The machine's value of an image: the count and the bytes.
fn value(name: &str, image: &[u8], machine: &mut Machine) -> (usize, Vec<u8>) {
    let mut result = vec![0; ROOM];
    let answer = machine.run(image, BUDGET, &mut result);
    let RunAnswer::Value { count, length } = answer else {
        panic!("{name}: the machine answers {answer:?}");
    };
    result.truncate(length);
    (count, result)
}

/// The count of the run, once both have given the same bytes.
fn same_value(name: &str, image: &[u8], built: &Built, machine: &mut Machine) -> usize {
    let (count, bytes) = value(name, image, machine);
    assert_eq!(built.run(ROOM), Ending::Value(bytes), "{name}");
    count
}

/// The count of the run, once the machine and the model have given the same.
fn models_value(name: &str, image: &[u8], machine: &mut Machine) -> usize {
    let (count, bytes) = value(name, image, machine);
    let loaded = model::load(image).expect("the image loads");
    let expected = Answer::Value {
        count: count as u64,
        bytes,
    };
    assert_eq!(model::run(&loaded, BUDGET as u64, ROOM), expected, "{name}");
    count
}

/// The least time of five rounds for one run of the sheet, in each way.
fn sheet_lines(machine: &mut Machine) {
    let image = std::fs::read(SHEET).expect("the sheet's image");
    let loaded = model::load(&image).expect("the sheet loads");
    let built = Built::new(&loaded);
    let count = same_value("pickup", &image, &built, machine);
    assert_eq!(machine.check(&image), CheckAnswer::Pass);
    let mut result = vec![0; ROOM];
    let mut memory = vec![0u8; RunWork::BYTES];
    let mut least = [f64::INFINITY; 5];
    for _ in 0..ROUNDS {
        let times = [
            many(|| {
                black_box(machine.run(black_box(&image), BUDGET, &mut result));
            }),
            many(|| {
                black_box(black_box(&built).run(ROOM));
            }),
            many(|| {
                let loaded = model::load(black_box(&image)).expect("the sheet loads");
                black_box(Built::new(&loaded).run(ROOM));
            }),
            many(|| {
                black_box(machine.check(black_box(&image)));
            }),
            many(|| black_box(&mut memory).fill(0)),
        ];
        for (least, time) in least.iter_mut().zip(times) {
            *least = least.min(time);
        }
    }
    let [run, built, loaded, check, clearing] = least;
    println!("sheets/pickup, {count} instructions, microseconds for one of {SHEET_RUNS} runs:");
    println!("  the machine, load and run and clear     {run:>8.2}");
    println!("  the Rust, run alone                     {built:>8.2}");
    println!("  the Rust, load by the model, build, run {loaded:>8.2}");
    println!("  the machine, load and check and clear   {check:>8.2}");
    println!(
        "  to clear {} bytes, as a run does    {clearing:>8.2}",
        RunWork::BYTES
    );
}

/// Microseconds for one of many.
fn many(mut work: impl FnMut()) -> f64 {
    let whole = timed(|| (0..SHEET_RUNS).for_each(|_| work()));
    whole / 1e3 / SHEET_RUNS as f64
}
