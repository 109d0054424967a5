//! The model and the published machine agree on random programs inside the domain.

mod steered;
mod wild;

use image::Image;
use model::Answer;
use std::collections::BTreeMap;

/// A small generator of pseudo-random numbers (xorshift64*).
pub struct Random(u64);

impl Random {
    pub fn new(seed: u64) -> Self {
        Random(seed.wrapping_mul(0x9E37_79B9_7F4A_7C15) | 1)
    }

    pub fn draw(&mut self) -> u64 {
        self.0 ^= self.0 >> 12;
        self.0 ^= self.0 << 25;
        self.0 ^= self.0 >> 27;
        self.0.wrapping_mul(0x2545_F491_4F6C_DD1D)
    }

    pub fn below(&mut self, bound: usize) -> usize {
        (self.draw() >> 16) as usize % bound
    }

    pub fn one_in(&mut self, bound: usize) -> bool {
        self.below(bound) == 0
    }
}

/// How many seeds a test takes; more on demand: `RANDOM_PROGRAMS=100000 cargo test ..`.
fn seeds(usual: u64) -> std::ops::Range<u64> {
    let wanted = std::env::var("RANDOM_PROGRAMS").ok();
    0..wanted.map_or(usual, |n| n.parse().expect("a number"))
}

/// What passes the stack check never stops for want of an operand, a constant, a scope or an
/// instruction.
fn judge_check(program: &Image) -> bool {
    let passes = model::stack_check(program) == model::Checked::Pass;
    if passes && let Answer::Stop { number, .. } = model::run(program, 10_000, 4_096) {
        assert!(
            !matches!(number, 30..=33 | 36),
            "{number}\n{}",
            program.lines()
        );
    }
    passes
}

/// Asks the oracle for every program. No line may be a difference, and enough of them must lie
/// inside the domain for that to mean something.
fn compare(programs: Vec<Image>, least_inside: f64) {
    let passing = programs.iter().filter(|p| judge_check(p)).count();
    let images: Vec<Vec<u8>> = programs.iter().map(|p| p.lines().into_bytes()).collect();
    let lines = oracle::answers(&images);
    let mut endings: BTreeMap<String, usize> = BTreeMap::new();
    let mut inside = 0;
    for (image, line) in images.iter().zip(&lines) {
        let image = String::from_utf8_lossy(image);
        assert!(!oracle::is_difference(line), "{line}\n{image}");
        inside += !line.starts_with("outside ") as usize;
        let words: Vec<&str> = line.split(' ').collect();
        let kept = match words[0] {
            "value" => 1,
            "stop" => 2,
            _ => 3,
        };
        *endings.entry(words[..kept].join(" ")).or_default() += 1;
    }
    println!("{passing} pass the check; {endings:?}");
    assert!(
        inside as f64 > least_inside * images.len() as f64,
        "{inside} inside"
    );
}

#[test]
fn wild_programs() {
    compare(seeds(6_000).map(wild::program).collect(), 0.5);
}

#[test]
fn steered_programs() {
    compare(seeds(3_000).map(steered::program).collect(), 0.7);
}
