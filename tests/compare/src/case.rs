//! One image: the machine beside the published Rust and beside the model.

use crate::report::Report;
use crate::subject::Subject;
use generate::rng::Rng;
use image::Image;
use model::{Answer, BUDGET, Checked, Judged, ROOM, Refusal};
use oracle::Answered;

/// The stops that no run of an image that passes the check may end in.
const RULED_OUT: [&str; 5] = ["stop 30 ", "stop 31 ", "stop 32 ", "stop 33 ", "stop 36 "];

/// The budget and the room that a run was lent; none for a check.
pub type Lent = Option<(u64, usize)>;

const RUNNER: Lent = Some((BUDGET, ROOM));

/// An image with its name, and what it is held to.
pub struct Case<'a> {
    pub name: String,
    pub image: &'a [u8],
    pub answered: &'a Answered,
}

impl Case<'_> {
    /// Asks the machine for everything there is to compare.
    pub fn compare(&self, subject: &mut Subject, report: &mut Report, rng: &mut Rng) {
        let line = subject.run(self.image, BUDGET, ROOM);
        match &self.answered.judged {
            Err(refusal) => self.compare_refused(&line, refusal, subject, report),
            Ok((image, judged)) => {
                self.compare_run(&line, judged, report);
                let passes = self.compare_check(image, subject, report);
                if passes {
                    self.no_fault_ruled_out(&line, report);
                }
                let small = (small_budget(rng, judged), ROOM);
                let narrow = (ample_budget(judged), small_room(rng, judged));
                for (budget, room) in [small, narrow] {
                    let line = subject.run(self.image, budget, room);
                    let expected = model::run(image, budget, room).to_string();
                    self.same(&line, &expected, "the model", Some((budget, room)), report);
                    report.smaller.add(&line);
                    if passes {
                        self.no_fault_ruled_out(&line, report);
                    }
                }
            }
        }
    }

    fn compare_refused(
        &self,
        line: &str,
        refusal: &Refusal,
        subject: &mut Subject,
        report: &mut Report,
    ) {
        let expected = refusal.to_string();
        report.statistics.add_refusal(refusal);
        self.same(line, &expected, "the model", RUNNER, report);
        let checked = subject.check(self.image);
        self.same(&checked, &expected, "the model's check", None, report);
        report.checks.add(&checked);
    }

    /// The run of the runner, beside the model and, inside the domain, beside the Rust.
    fn compare_run(&self, line: &str, judged: &Judged, report: &mut Report) {
        let expected = judged.answer.to_string();
        self.same(line, &expected, "the model", RUNNER, report);
        let published = self.answered.line.as_str();
        if judged.outside.is_some() {
            report.statistics.add_run(judged);
        } else if published.starts_with("outside ") {
            report.late += 1;
        } else {
            report.statistics.add_run(judged);
            report.published += 1;
            self.same(line, published, "the Rust", RUNNER, report);
        }
    }

    /// Whether the image passes, by the machine and the model.
    fn compare_check(&self, image: &Image, subject: &mut Subject, report: &mut Report) -> bool {
        let line = subject.check(self.image);
        let expected = match model::stack_check(image) {
            Checked::Pass => "pass".to_string(),
            Checked::Fault {
                number,
                chunk,
                offset,
            } => format!("fault {number} {chunk:04} {offset:04}"),
        };
        self.same(&line, &expected, "the model's check", None, report);
        report.checks.add(&line);
        line == "pass"
    }

    fn no_fault_ruled_out(&self, line: &str, report: &mut Report) {
        report.passed_runs += 1;
        if RULED_OUT.iter().any(|stop| line.starts_with(stop)) {
            report.differs(self, line, "no such stop", "demand 3", RUNNER);
        }
    }

    fn same(&self, line: &str, expected: &str, whose: &str, lent: Lent, r: &mut Report) {
        if line != expected {
            r.differs(self, line, expected, whose, lent);
        }
    }
}

/// How many instructions began.
fn count(judged: &Judged) -> u64 {
    match judged.answer {
        Answer::Value { count, .. } | Answer::Stop { count, .. } => count,
    }
}

/// A budget at, below or far below the count of the run; or none to speak of, where it ends.
fn small_budget(rng: &mut Rng, judged: &Judged) -> u64 {
    let count = count(judged);
    let ends = !matches!(judged.answer, Answer::Stop { number: 46, .. });
    match rng.below(8) {
        0 => count,
        1 | 2 => count.saturating_sub(1),
        3 if ends => u64::MAX,
        4 => 0,
        _ => rng.below(count.min(10_000) as usize) as u64,
    }
}

/// The runner's budget, except for a run that is long: once is enough for it.
fn ample_budget(judged: &Judged) -> u64 {
    if count(judged) > 20_000 { 999 } else { BUDGET }
}

/// A room at or below the length of the result; any small one where there is none.
fn small_room(rng: &mut Rng, judged: &Judged) -> usize {
    let length = match &judged.answer {
        Answer::Value { bytes, .. } => bytes.len(),
        Answer::Stop { .. } => return rng.below(20),
    };
    match rng.below(4) {
        0 => length,
        1 => length - 1,
        2 => 0,
        _ => rng.below(length),
    }
}
