//! The proved machine beside the published Rust and beside the model. `compare` makes images with the
//! generators, asks all three, and says what was compared; it ends with exit code 1 if any two answers
//! differ, or if an instruction or a stop that the domain can have came up in no run.
//!
//! `compare --seed N` takes other images of the same sorts, `compare --times N` N times as many.
//!
//! - Inside the domain (docs/DIFFERENCES.md) the machine's answer is held to the published Rust's: the bytes of the
//!   value or the number of the stop, its place, and the count.
//! - On every image, in the domain or not, it is held to the model's, with the runner's budget and room
//!   and with smaller ones; refusals and the stack check too.
//! - An image that passes the check must not stop with 30, 31, 32, 33 or 36.
//! - After each call the work memory has to be zero, and the result slice unchanged behind a value.
//! - All stored lists and sheets are replayed.

mod case;
mod report;
mod subject;

use case::Case;
use generate::rng::Rng;
use generate::{FIXED, fixed, seeded};
use report::Report;
use std::process::ExitCode;
use std::time::Instant;
use stored::{CASES, CHECKS, DAMAGED, OUTSIDE, entries, path, sheets};
use subject::Subject;

/// How many images of each generator are compared.
const SHARES: [(&str, u64); 5] = [
    ("passing", 100_000),
    ("mutated", 100_000),
    ("instructions", 60_000),
    ("bytes", 20_000),
    ("damaged", 40_000),
];
/// Not the seed of the stored lists.
const SEED: u64 = 11;
/// How many images are asked of the Rust at a time.
const BATCH: usize = 2_000;

struct Wanted {
    seed: u64,
    times: u64,
}

fn main() -> ExitCode {
    oracle::serve_if_child();
    let words: Vec<String> = std::env::args().skip(1).collect();
    let Some(wanted) = wanted(&words) else {
        eprintln!("compare [--seed N] [--times N]");
        return ExitCode::from(2);
    };
    let mut comparison = Comparison {
        subject: Subject::new(),
        report: Report::default(),
        rng: Rng::new(wanted.seed),
        began: Instant::now(),
    };
    match comparison.all(&wanted) {
        Ok(()) => comparison.verdict(),
        Err(message) => {
            eprintln!("compare: {message}");
            ExitCode::FAILURE
        }
    }
}

fn wanted(words: &[String]) -> Option<Wanted> {
    let mut wanted = Wanted {
        seed: SEED,
        times: 1,
    };
    for pair in words.chunks(2) {
        let number = pair.get(1)?.parse().ok()?;
        match pair[0].as_str() {
            "--seed" => wanted.seed = number,
            "--times" => wanted.times = number,
            _ => return None,
        }
    }
    Some(wanted)
}

struct Comparison {
    subject: Subject,
    report: Report,
    rng: Rng,
    began: Instant,
}

impl Comparison {
    /// Everything there is to compare; ends early after a few differences.
    fn all(&mut self, wanted: &Wanted) -> Result<(), String> {
        self.stored()?;
        for list in FIXED {
            let cases = fixed(list).ok_or(list)?;
            let name = |n: usize| format!("{list}: {}", cases[n].name);
            let images: Vec<Vec<u8>> = cases.iter().map(|case| case.bytes.clone()).collect();
            self.batch(&images, name);
            self.say(list, images.len() as u64);
        }
        for (generator, count) in SHARES {
            let count = count * wanted.times;
            self.generated(generator, wanted.seed, count);
            self.say(generator, count);
        }
        Ok(())
    }

    fn say(&self, what: &str, images: u64) {
        let seconds = self.began.elapsed().as_secs();
        let differences = self.report.differences;
        println!("{what}: {images} images, {differences} differences so far, {seconds} s");
    }

    fn generated(&mut self, generator: &str, seed: u64, count: u64) {
        for from in (0..count).step_by(BATCH) {
            if !self.report.goes_on() {
                return;
            }
            let numbers = from..count.min(from + BATCH as u64);
            let images: Option<Vec<_>> = numbers.map(|n| seeded(generator, seed, n)).collect();
            let name = |n: usize| format!("{generator} {seed} {}", from + n as u64);
            self.batch(&images.expect("a known generator"), name);
        }
    }

    fn batch(&mut self, images: &[Vec<u8>], name: impl Fn(usize) -> String) {
        let answered = oracle::answered(images);
        for (number, (image, answered)) in images.iter().zip(&answered).enumerate() {
            if !self.report.goes_on() {
                return;
            }
            let case = Case {
                name: name(number),
                image,
                answered,
            };
            case.compare(&mut self.subject, &mut self.report, &mut self.rng);
        }
    }

    /// The stored lists and the sheets, which need no Rust.
    fn stored(&mut self) -> Result<(), String> {
        for list in [CASES, OUTSIDE, DAMAGED, CHECKS] {
            let text = std::fs::read_to_string(path(list)).map_err(|e| format!("{list}: {e}"))?;
            let entries = entries(&text);
            for entry in &entries {
                self.replay(list, &entry.image, &entry.answer);
            }
            self.say(list, entries.len() as u64);
        }
        for name in sheets::names()? {
            let file = |end: &str| sheets::folder().join(format!("{name}.{end}"));
            let read = |end: &str| std::fs::read(file(end)).map_err(|e| format!("{name}: {e}"));
            let answer = String::from_utf8_lossy(&read("out")?).into_owned();
            self.replay(&name, &read("img")?, answer.trim_end());
        }
        Ok(())
    }

    fn replay(&mut self, list: &str, image: &[u8], answer: &str) {
        let line = match list {
            CHECKS => self.subject.check(image),
            _ => self.subject.run(image, model::BUDGET, model::ROOM),
        };
        self.report.stored += 1;
        if line != answer {
            self.report.show(list, image, &line, answer, "the list");
        }
    }

    fn verdict(&self) -> ExitCode {
        println!("\n{}", self.report);
        let (calls, used) = (self.subject.calls, self.subject.used);
        println!("calls of the machine: {calls}, {used} of them with memory that was used");
        println!("took {} s", self.began.elapsed().as_secs());
        let missing = self.report.missing();
        if self.report.differences > 0 {
            println!("compare: FAILED, answers differ");
            return ExitCode::FAILURE;
        }
        if !missing.is_empty() {
            println!("compare: FAILED, no run had {}", missing.join(", "));
            return ExitCode::FAILURE;
        }
        println!("compare: no answer differs");
        ExitCode::SUCCESS
    }
}
