//! What was compared, and what differs.

use crate::case::{Case, Lent};
use generate::statistics::Statistics;
use std::collections::BTreeMap;
use std::fmt;

/// How many differences are shown before the comparison is given up.
const SHOWN: u64 = 10;

/// How many answers ended in each way.
#[derive(Default)]
pub struct Endings(BTreeMap<String, u64>);

impl Endings {
    /// Counts a line by its first word and the number after it.
    pub fn add(&mut self, line: &str) {
        let words: Vec<&str> = line.split(' ').collect();
        let ending = match words[..] {
            ["value", ..] | ["pass"] => words[0].to_string(),
            [word, number, ..] => format!("{word} {number}"),
            _ => line.to_string(),
        };
        *self.0.entry(ending).or_default() += 1;
    }

    fn all(&self) -> u64 {
        self.0.values().sum()
    }

    /// Those of the endings that no answer had.
    pub fn missing(&self, endings: &[&str]) -> Vec<String> {
        let missing = endings.iter().filter(|e| !self.0.contains_key(**e));
        missing.map(|e| e.to_string()).collect()
    }
}

impl fmt::Display for Endings {
    fn fmt(&self, f: &mut fmt::Formatter<'_>) -> fmt::Result {
        for (ending, times) in &self.0 {
            writeln!(f, "  {ending}: {times}")?;
        }
        Ok(())
    }
}

#[derive(Default)]
pub struct Report {
    /// the runner's runs, by the model's judgement
    pub statistics: Statistics,
    /// runs compared with the published Rust
    pub published: u64,
    /// runs inside the domain for which the Rust took too long
    pub late: u64,
    /// the checks compared with the model's
    pub checks: Endings,
    /// runs with a smaller budget or a smaller room, compared with the model's
    pub smaller: Endings,
    /// runs of images that pass the check
    pub passed_runs: u64,
    /// stored answers replayed
    pub stored: u64,
    pub differences: u64,
}

impl Report {
    /// Counts a difference and shows it.
    pub fn differs(&mut self, case: &Case, line: &str, expected: &str, whose: &str, lent: Lent) {
        let what = match lent {
            Some((budget, room)) => format!("{} (budget {budget}, room {room})", case.name),
            None => case.name.clone(),
        };
        self.show(&what, case.image, line, expected, whose);
    }

    pub fn show(&mut self, what: &str, image: &[u8], line: &str, expected: &str, whose: &str) {
        self.differences += 1;
        if self.differences > SHOWN {
            return;
        }
        let image = String::from_utf8_lossy(image);
        println!("DIFFERS: {what}\n{image}the machine: {line}\n{whose}: {expected}\n");
    }

    /// Whether to go on: one difference shows that something is wrong, a few show what.
    pub fn goes_on(&self) -> bool {
        self.differences < SHOWN
    }

    /// What should have come up, and did not.
    pub fn missing(&self) -> Vec<String> {
        let mut missing = self.statistics.missing();
        let faults = ["pass", "fault 10", "fault 11", "fault 12", "fault 13"];
        missing.extend(self.checks.missing(&faults));
        missing.extend(self.smaller.missing(&["value", "stop 46", "stop 47"]));
        missing
    }
}

impl fmt::Display for Report {
    fn fmt(&self, f: &mut fmt::Formatter<'_>) -> fmt::Result {
        writeln!(f, "{}", self.statistics)?;
        writeln!(f, "compared with the published Rust: {}", self.published)?;
        writeln!(
            f,
            "inside the domain, but the Rust took too long: {}",
            self.late
        )?;
        writeln!(
            f,
            "compared with the model: {}",
            self.statistics.cases + self.late
        )?;
        writeln!(f, "checks compared with the model: {}", self.checks.all())?;
        write!(f, "{}", self.checks)?;
        writeln!(
            f,
            "runs of images that pass the check: {}",
            self.passed_runs
        )?;
        writeln!(
            f,
            "runs with another budget or room, compared with the model: {}",
            self.smaller.all()
        )?;
        write!(f, "{}", self.smaller)?;
        writeln!(f, "stored answers replayed: {}", self.stored)?;
        writeln!(f, "differences: {}", self.differences)
    }
}
