//! The wrong programs of one crate and their controls, tried together, and what comes of each.

use crate::batch::{Batch, Placed, batches};
use crate::copy::{Copy, crate_files, edits};
use crate::edit::Edit;
use crate::judge::{Checked, Controlled, Refused, beside_control};
use crate::names::{Names, carry};
use crate::source::Files;
use std::collections::{BTreeMap, BTreeSet};
use std::path::{Path, PathBuf};
use std::sync::{Mutex, OnceLock};

/// The error by which an edit is refused, or why it does not pass.
pub type Answer = Result<String, String>;

pub struct Trials {
    pub name: String,
    /// The files of the right program and of its proofs.
    files: Files,
    /// What the check of the right program kept, from which each other check begins.
    seed: PathBuf,
    proved: OnceLock<Result<(), String>>,
    /// The names that Rattle makes of the right program.
    names: OnceLock<Option<Names>>,
    said: Mutex<Said>,
}

/// What came of the edits so far.
#[derive(Default)]
struct Said {
    /// of each edit, by its name
    answers: BTreeMap<String, Result<Refused, String>>,
    /// of each control, by the name of its edit
    controls: BTreeMap<String, Controlled>,
    /// The edits that bring a proof.
    own_proofs: BTreeSet<String>,
}

impl Trials {
    /// The edits of a crate, or only those that are named, and the checks in which they are tried.
    pub fn of_crate(top: &Path, name: &str, only: &[String], seeds: &Path) -> (Trials, Vec<Batch>) {
        let files = crate_files(top, name);
        let (mut said, mut all) = (Said::default(), Vec::new());
        for (edit, text) in edits(top, name) {
            if !only.is_empty() && !only.contains(&edit) {
                continue;
            }
            let placed = Edit::parse(&edit, &text).and_then(|e| Placed::new(e, &files));
            match placed {
                Ok(placed) => {
                    if !placed.edit.proofs.is_empty() {
                        said.own_proofs.insert(edit);
                    }
                    all.extend(placed.control(&files));
                    all.push(placed);
                }
                Err(why) => drop(said.answers.insert(edit, Err(why))),
            }
        }
        let batches = batches(&files, all);
        let trials = Trials {
            name: name.to_string(),
            files,
            seed: seeds.join(name),
            proved: OnceLock::new(),
            names: OnceLock::new(),
            said: Mutex::new(said),
        };
        (trials, batches)
    }

    /// Tries a batch. Those that do not pass together are to be tried again, each alone: one may keep all from the prover, and what Rattle
    /// seeks by itself it seeks only where what is called is proved.
    pub fn try_batch(&self, copy: &Copy, batch: Batch) -> Vec<Batch> {
        let proved = || copy.prove(&self.name, &self.files, &self.seed);
        if let Err(why) = self.proved.get_or_init(proved) {
            let mut said = self.said.lock().unwrap();
            for placed in batch.edits {
                said.answers.insert(placed.edit.name, Err(why.clone()));
            }
            return Vec::new();
        }
        let in_code = batch
            .edits
            .iter()
            .any(|p| p.functions.iter().any(Option::is_some));
        let right = || copy.names(&self.name, &self.files);
        let right = in_code
            .then(|| self.names.get_or_init(right).as_ref())
            .flatten();
        let wrong = right.and_then(|_| copy.names(&self.name, &batch.files));
        let names = right.zip(wrong.as_ref());
        let files = names.map_or_else(|| batch.files.clone(), |n| carried(&batch.files, n));
        let log = &copy.check(&self.name, &files, &self.seed);
        copy.restore(&self.name, &self.files);
        let files = &files;
        let checked = Checked { log, files, names };
        let alone = batch.edits.len() == 1;
        let mut again = Vec::new();
        for placed in batch.edits {
            if !self.settle(&checked, &placed) && !alone {
                again.push(Batch::alone(placed, &self.files));
            }
        }
        again
    }

    /// Notes what a check says of an edit or a control; whether it passes.
    fn settle(&self, checked: &Checked, placed: &Placed) -> bool {
        let name = placed.edit.name.clone();
        let mut said = self.said.lock().unwrap();
        if placed.is_control {
            let what = checked.control(placed);
            let settled = matches!(what, Controlled::Proved);
            said.controls.insert(name, what);
            settled
        } else {
            let answer = checked.wrong(placed);
            let settled = answer.as_ref().is_ok_and(|by| by.is_fact);
            said.answers.insert(name, answer);
            settled
        }
    }

    /// What came of each edit, by name, once all were tried.
    pub fn verdicts(&self) -> Vec<(String, Answer)> {
        let mut said = std::mem::take(&mut *self.said.lock().unwrap());
        let mut all = Vec::new();
        for (name, answer) in said.answers {
            let control = said.controls.remove(&name);
            let own = said.own_proofs.contains(&name);
            all.push((name, answer.and_then(|e| beside_control(e, control, own))));
        }
        all
    }
}

/// The files with the names of the wrong program in the proofs of the functions whose names changed.
fn carried(files: &Files, (right, wrong): (&Names, &Names)) -> Files {
    let mut files = files.clone();
    for (folder, renamed) in right.carried(wrong) {
        let begin = format!("proofs/{folder}/");
        for (path, text) in &mut files {
            if path.starts_with(&begin) {
                *text = carry(text, &renamed);
            }
        }
    }
    files
}

#[cfg(test)]
mod tests {
    use super::*;

    #[test]
    fn a_proof_has_the_names_of_the_wrong_program() {
        let names = |goal: &str| {
            let list = format!("{{\"needs\": [[\"returns\", \"{goal}\"]]}}");
            let text = format!("{{\"Rattle-k-proofs.m.f.Lts\": {list}}}");
            Names::read("k", &text).unwrap()
        };
        let of = |path: &str| {
            (
                format!("proofs/m/{path}/Answers.antt"),
                "returns-a7 c = b".to_string(),
            )
        };
        let files = carried(
            &Files::from([of("f"), of("g")]),
            (&names("returns-a7"), &names("returns-a8")),
        );
        assert_eq!(files["proofs/m/f/Answers.antt"], "returns-a8 c = b");
        assert_eq!(files["proofs/m/g/Answers.antt"], "returns-a7 c = b");
    }
}
