//! What a check says of an edit, and of its control.

use crate::batch::Placed;
use crate::names::Names;
use crate::prover::{About, Error, Log, site};
use crate::source::{Files, reached};

/// A check of edited files, with what is known of their names.
pub struct Checked<'a> {
    pub log: &'a Log,
    /// The files as they were checked.
    pub files: &'a Files,
    /// The names of the right program and of the one that was checked; none where no function was edited, or where it does not compile.
    pub names: Option<(&'a Names, &'a Names)>,
}

/// What an edit is refused by.
#[derive(Debug)]
pub struct Refused {
    pub error: String,
    /// A fact that fails; or else a goal that the right program does not have, which is one only where the control has it too, and is proved.
    pub is_fact: bool,
}

impl Refused {
    fn by(error: &Error<'_>) -> Refused {
        Refused {
            error: error.text.to_string(),
            is_fact: error.about == About::Fact,
        }
    }

    fn for_its_form(&self) -> String {
        format!("refused for its form: {}", self.error)
    }
}

/// What came of a control.
#[derive(Debug, PartialEq, Eq)]
pub enum Controlled {
    Proved,
    /// by this error
    Refused(String),
    /// it is asked for, and there is none that can be judged
    Missing(String),
}

impl Checked<'_> {
    /// The errors of a function by itself, with what each is about.
    fn own_errors(&self, function: &str) -> Vec<Error<'_>> {
        let is_new = |goal: &str| {
            self.names
                .is_some_and(|(right, wrong)| wrong.is_new(right, function, goal))
        };
        self.log.own_errors(function, self.files, &is_new)
    }

    /// By what an edit is refused, or why it does not pass.
    pub fn wrong(&self, placed: &Placed) -> Result<Refused, String> {
        let first = self.log.first_error();
        if !self.log.refused() {
            return Err(format!(
                "not refused by the prover; the log: {}",
                first.text
            ));
        }
        let mut by = Refused::by(&first);
        if placed.edit.of.is_empty() && first.about != About::Fact {
            return Err(by.for_its_form());
        }
        for (number, of) in placed.edit.of.iter().enumerate() {
            if !self.log.unproved(of) {
                return Err(format!("refused, but {of} is proved: {}", by.error));
            }
            let below = self.error_below(placed, of)?;
            if number == 0 || by.is_fact {
                by = below;
            }
        }
        Ok(by)
    }

    /// The error of a function in which the edit lies, and which is `of` or is called by it: a fact that fails, or else a goal that the
    /// right program does not have. Where one of its errors is about the proof's form, none of them counts. An edit of a definition, or of a
    /// constant, lies in no function.
    fn error_below(&self, placed: &Placed, of: &str) -> Result<Refused, String> {
        let reached = reached(self.files, of);
        let mut why = format!(
            "{of} calls nothing that is refused by itself: {}",
            self.log.first_error().text
        );
        for function in &placed.functions {
            let own = match function {
                None => vec![self.log.first_error()],
                Some(f) if reached.contains(f) => self.own_errors(f),
                Some(_) => Vec::new(),
            };
            let of_sort = |about: About| own.iter().find(|error| error.about == about);
            let found = of_sort(About::Form).or(of_sort(About::Fact));
            match found.or(own.first()) {
                Some(error) if error.about == About::Form => {
                    why = Refused::by(error).for_its_form();
                }
                Some(error) => return Ok(Refused::by(error)),
                None => {}
            }
        }
        Err(why)
    }

    /// A control is proved where no function in which it lies has an error of its own: what it calls may be edited in the
    /// same check.
    pub fn control(&self, placed: &Placed) -> Controlled {
        for function in &placed.functions {
            let Some(function) = function else {
                return Controlled::Missing("its control lies in no function".to_string());
            };
            if let Some(error) = self.own_errors(function).first() {
                return Controlled::Refused(error.text.to_string());
            }
            if !self.log.judged(function) {
                let why = self.log.first_error().text;
                return Controlled::Missing(format!("its control is not judged: {why}"));
            }
        }
        Controlled::Proved
    }
}

/// An edit that is refused by a fact counts where its control is proved or refused at another goal; where it brings a proof of its own, or is
/// refused by a goal that the right program does not have, only where the control is proved.
pub fn beside_control(
    by: Refused,
    control: Option<Controlled>,
    own_proof: bool,
) -> Result<String, String> {
    let error = by.error.clone();
    match control {
        Some(Controlled::Proved) => Ok(error),
        _ if !by.is_fact => Err(by.for_its_form()),
        None => Ok(error),
        Some(Controlled::Refused(other)) if own_proof => Err(format!(
            "its control, a right program, is not proved by the proof that it brings: {other}"
        )),
        Some(Controlled::Refused(other)) if site(&other) != site(&error) => Ok(error),
        Some(Controlled::Refused(other)) => Err(format!(
            "its control, a right program, is refused at the same place: {other}"
        )),
        Some(Controlled::Missing(why)) => Err(why),
    }
}

#[cfg(test)]
mod tests {
    use super::*;
    use crate::edit::Edit;

    const EDIT: &str = "of: f\nfile: src/lib.rt\nold: 2\nnew: 3\ncontrol: 1 + 1\n";

    fn files() -> Files {
        let text = "fn f() -> u8 {\n    2\n}\n\nfn g() -> u8 {\n    f()\n}\n";
        Files::from([("src/lib.rt".to_string(), text.to_string())])
    }

    fn edit() -> Placed {
        Placed::new(Edit::parse("e", EDIT).unwrap(), &files()).unwrap()
    }

    fn log(error: &str, verdict: &str) -> Log {
        let lines = [error, &format!("fn x::f: {verdict}"), "logic=not-proved"];
        Log(lines.join("\n"))
    }

    fn wrong(log: Log, files: &Files, placed: &Placed) -> Result<String, String> {
        let names = None;
        let checked = Checked {
            log: &log,
            files,
            names,
        };
        let by = checked.wrong(placed)?;
        beside_control(by, None, false)
    }

    fn control(log: Log, placed: &Placed) -> Controlled {
        let (files, names) = (&files(), None);
        Checked {
            log: &log,
            files,
            names,
        }
        .control(placed)
    }

    const FACT: &str = "./proofs/f/Answers.antt:9:1: error: `returns`: the two types differ";
    const ELSEWHERE: &str = "./proofs/f/Answers.antt:7:4: error: `returns-2`: the two types differ";
    const FORM: &str =
        "./proofs/f/Answers.antt:9:1: error: `returns`: record `Then1` has no field `f`";
    const PARTS: &str = "./proofs/f/Answers.antt:8:1: error: `add`: `goal.add`: module `f.Goals` has no `add` that can be named";
    const OPEN: &str =
        "note: src/lib.rt:2:5: it is not proved that it returns what is right (`returns`)";

    #[test]
    fn an_edit_is_refused_for_a_fact() {
        let judged = |error: &str| wrong(log(error, "not proved"), &files(), &edit());
        assert!(judged(FACT).unwrap().starts_with("f/Answers.antt:9:1"));
        assert!(judged(FORM).unwrap_err().contains("form"));
        assert!(judged(PARTS).unwrap_err().contains("form"));
        assert!(judged(&format!("{PARTS}\n{FACT}")).is_ok());
        assert!(judged(&format!("{FACT}\n{FORM}")).is_err());
        assert!(judged(OPEN).is_ok());
        assert!(wrong(log("", "proved"), &files(), &edit()).is_err());
        let proved = Log("logic=proved".to_string());
        assert!(wrong(proved, &files(), &edit()).is_err());
    }

    #[test]
    fn a_wrong_definition_is_refused_by_its_first_error() {
        let files = Files::from([("specs/A.antt".to_string(), "f = 2\n".to_string())]);
        let text = EDIT
            .replace("of: f\n", "")
            .replace("src/lib.rt", "specs/A.antt");
        let placed = Placed::new(Edit::parse("e", &text).unwrap(), &files).unwrap();
        let judged = |error| wrong(log(error, "not proved"), &files, &placed);
        assert!(judged(FACT).is_ok());
        assert!(judged(FORM).is_err());
        assert!(judged("./specs/A.antt:1:1: error: `g` is not in scope").is_err());
    }

    #[test]
    fn a_control_is_proved_or_refused() {
        let placed = edit().control(&files()).unwrap();
        let judged = |error, verdict| control(log(error, verdict), &placed);
        assert_eq!(judged("", "proved"), Controlled::Proved);
        let below = "not proved; it calls `x::h`, which is not proved";
        assert_eq!(judged("", below), Controlled::Proved);
        assert!(matches!(judged(FACT, "not proved"), Controlled::Refused(_)));
        let calls = "no proof: it calls `x::h`, which is not proved";
        assert!(matches!(judged("", calls), Controlled::Missing(_)));
        let nothing = control(Log("error: expected `;`".to_string()), &placed);
        assert!(matches!(nothing, Controlled::Missing(_)));
    }

    #[test]
    fn an_edit_counts_only_beside_its_control() {
        let by = |is_fact| Refused {
            error: FACT.to_string(),
            is_fact,
        };
        let refused = |other: &str| Some(Controlled::Refused(other.to_string()));
        let beside = |control, own_proof| beside_control(by(true), control, own_proof);
        assert!(beside_control(by(false), None, false).is_err());
        assert!(beside_control(by(false), refused(ELSEWHERE), false).is_err());
        assert!(beside_control(by(false), Some(Controlled::Proved), false).is_ok());
        assert!(beside(None, false).is_ok());
        assert!(beside(Some(Controlled::Proved), false).is_ok());
        assert!(beside(refused(ELSEWHERE), false).is_ok());
        assert!(beside(refused(FACT), false).is_err());
        assert!(beside(Some(Controlled::Proved), true).is_ok());
        assert!(beside(refused(ELSEWHERE), true).is_err());
        let missing = Controlled::Missing("none".to_string());
        assert!(beside(Some(missing), false).is_err());
        let placed = edit().control(&files()).unwrap();
        let other = control(log(ELSEWHERE, "not proved"), &placed);
        assert!(beside(Some(other), false).is_ok());
    }
}
