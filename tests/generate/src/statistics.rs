//! How many cases met each instruction and each stop inside the domain.

use image::INSTRUCTIONS;
use model::{Answer, BUDGET, Judged, ROOM, Refusal};
use std::collections::BTreeMap;
use std::fmt;

#[derive(Debug, Clone, Default, PartialEq, Eq)]
pub struct Statistics {
    pub cases: u64,
    /// refused by load, by number
    pub refused: BTreeMap<u8, u64>,
    /// runs outside the domain
    pub outside: u64,
    /// the same by the reason
    pub reasons: BTreeMap<String, u64>,
    /// runs inside it that end in a value
    pub values: u64,
    /// runs inside it that end in a stop, by number
    pub stops: BTreeMap<u8, u64>,
    /// runs inside it in which each instruction began, by number
    pub met: BTreeMap<u8, u64>,
    /// instructions begun in all runs inside it
    pub begun: u64,
}

/// The stops that a run inside the domain can end in. 30 is met by Cast alone, 34 never, because the
/// published machine panics there; 33, 45, 46 and 47 lie outside by their definition.
pub const STOPS: [u8; 13] = [30, 31, 32, 35, 36, 37, 38, 39, 40, 41, 42, 43, 44];

impl Statistics {
    /// Counts one case in.
    pub fn add(&mut self, bytes: &[u8]) {
        match model::load(bytes) {
            Ok(image) => self.add_run(&model::judge(&image, BUDGET, ROOM)),
            Err(refusal) => self.add_refusal(&refusal),
        }
    }

    /// Counts in a case that load refuses.
    pub fn add_refusal(&mut self, refusal: &Refusal) {
        self.cases += 1;
        *self.refused.entry(refusal.number).or_default() += 1;
    }

    /// Counts in a run that is judged.
    pub fn add_run(&mut self, judged: &Judged) {
        self.cases += 1;
        if let Some(why) = judged.outside {
            self.outside += 1;
            *self.reasons.entry(why.to_string()).or_default() += 1;
            return;
        }
        match judged.answer {
            Answer::Value { count, .. } => {
                self.values += 1;
                self.begun += count;
            }
            Answer::Stop { number, count, .. } => {
                *self.stops.entry(number).or_default() += 1;
                self.begun += count;
            }
        }
        for number in 0..INSTRUCTIONS.len() as u8 {
            if judged.met >> number & 1 == 1 {
                *self.met.entry(number).or_default() += 1;
            }
        }
    }

    /// The instructions and stops that no case had.
    pub fn missing(&self) -> Vec<String> {
        let instructions = (0..INSTRUCTIONS.len()).filter(|&n| !self.met.contains_key(&(n as u8)));
        let named = |n: usize| format!("instruction {}", INSTRUCTIONS[n].0);
        let mut missing: Vec<String> = instructions.map(named).collect();
        let stops = STOPS.iter().filter(|n| !self.stops.contains_key(n));
        missing.extend(stops.map(|n| format!("stop {n}")));
        missing
    }
}

impl fmt::Display for Statistics {
    fn fmt(&self, f: &mut fmt::Formatter<'_>) -> fmt::Result {
        let (stops, refused) = (
            self.stops.values().sum::<u64>(),
            self.refused.values().sum(),
        );
        let refused: u64 = refused;
        writeln!(f, "cases {}", self.cases)?;
        writeln!(f, "refused {refused}")?;
        for (number, times) in &self.refused {
            writeln!(f, "  refused {number}: {times}")?;
        }
        writeln!(f, "outside the domain {}", self.outside)?;
        for (why, times) in &self.reasons {
            writeln!(f, "  {why}: {times}")?;
        }
        writeln!(f, "inside: values {}, stops {stops}", self.values)?;
        for (number, times) in &self.stops {
            writeln!(f, "  stop {number}: {times}")?;
        }
        writeln!(f, "instructions begun {}", self.begun)?;
        for (number, times) in &self.met {
            let name = INSTRUCTIONS[*number as usize].0;
            writeln!(f, "  {name}: in {times} runs")?;
        }
        Ok(())
    }
}
