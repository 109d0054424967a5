//! An edit: a wrong program, as a change of a crate's files.

use crate::source::{Files, function_at, place_of};

/// One text of one file, and what stands there instead.
#[derive(Clone)]
pub struct Change {
    pub file: String,
    /// The function in which the text stands once, where it stands more than once in the file.
    pub within: Option<String>,
    pub old: String,
    pub new: String,
    /// What stands there in a right program of the same changed shape.
    pub control: Option<String>,
}

/// A file of a function's proof that fits the changed shape, and takes the place of its own: the control is proved by it.
#[derive(Clone)]
pub struct Proof {
    pub file: String,
    pub text: String,
}

pub struct Edit {
    pub name: String,
    /// The functions that it is a wrong program of; none where it is a wrong definition.
    pub of: Vec<String>,
    pub changes: Vec<Change>,
    pub proofs: Vec<Proof>,
}

/// A method is named with its type before it, as `CodeCursor::fetch_byte`.
fn last_part(name: &str) -> String {
    name.rsplit("::").next().unwrap_or(name).to_string()
}

impl Edit {
    pub fn parse(name: &str, text: &str) -> Result<Edit, String> {
        let (text, proofs) = Proof::behind(text);
        let (mut of, mut changes) = (Vec::new(), Vec::new());
        let (mut file, mut within, mut old) = (String::new(), None, None);
        for line in text.lines() {
            if let Some(names) = line.strip_prefix("of: ") {
                of = names.split_whitespace().map(last_part).collect();
            } else if let Some(named) = line.strip_prefix("file: ") {
                file = named.to_string();
                within = None;
            } else if let Some(named) = line.strip_prefix("in: ") {
                within = Some(named.to_string());
            } else if let Some(text) = line.strip_prefix("old: ") {
                old = Some(text.to_string());
            } else if let Some(text) = line.strip_prefix("new:") {
                changes.push(Change {
                    file: file.clone(),
                    within: within.clone(),
                    old: old.take().ok_or("a line 'new:' without a line 'old:'")?,
                    new: text.strip_prefix(' ').unwrap_or(text).to_string(),
                    control: None,
                });
            } else if let Some(text) = line.strip_prefix("control:") {
                let change: &mut Change = changes.last_mut().ok_or("a 'control:' before 'new:'")?;
                change.control = Some(text.strip_prefix(' ').unwrap_or(text).to_string());
            }
        }
        if changes.is_empty() || old.is_some() {
            return Err("it has no pair of lines 'old:' and 'new:', or half a pair".to_string());
        }
        if changes.iter().any(Change::is_of_a_contract) {
            return Err("it changes a contract".to_string());
        }
        if changes.iter().any(Change::has_an_idle_control) {
            return Err("its control is the right program itself, or the wrong one".to_string());
        }
        let of_code = |change: &Change| change.file.starts_with("src/");
        if of.is_empty() && changes.iter().any(of_code) {
            return Err("it changes code, and has no line 'of:'".to_string());
        }
        if !proofs.is_empty() && changes.iter().all(|change| change.control.is_none()) {
            return Err("it has a proof, and no control that is proved by it".to_string());
        }
        if !proofs.iter().all(Proof::is_of_a_function) {
            return Err("what it brings is no function's proof".to_string());
        }
        Ok(Edit {
            name: name.to_string(),
            of,
            changes,
            proofs,
        })
    }

    /// The right program of the same changed shape, where the edit has one: the places that have a control are
    /// changed to it, and no others.
    pub fn control(&self) -> Option<Edit> {
        let controlled = |change: &Change| {
            let new = change.control.clone()?;
            let control = None;
            Some(Change {
                new,
                control,
                ..change.clone()
            })
        };
        let changes: Vec<Change> = self.changes.iter().filter_map(controlled).collect();
        (!changes.is_empty()).then(|| Edit {
            name: self.name.clone(),
            of: self.of.clone(),
            changes,
            proofs: self.proofs.clone(),
        })
    }

    /// Makes the edit. The answer is the functions in which it lies; a place outside every function is none.
    pub fn make(&self, files: &mut Files) -> Result<Vec<Option<String>>, String> {
        for proof in &self.proofs {
            files.insert(proof.file.clone(), proof.text.clone());
        }
        self.changes
            .iter()
            .map(|change| change.make(files))
            .collect()
    }
}

impl Proof {
    /// A shared file of proofs or a definition would change other functions too.
    fn is_of_a_function(&self) -> bool {
        let of_one = ["/Answers.antt", "/Invariants.antt", "/Proof.antt"];
        self.file.starts_with("proofs/") && of_one.iter().any(|end| self.file.ends_with(end))
    }

    /// An edit's text up to the first line `proof:`, and the files that are behind such lines, each up to the next.
    fn behind(text: &str) -> (&str, Vec<Proof>) {
        let mut parts = text.split("\nproof: ");
        let edit = parts.next().unwrap_or("");
        let proof = |part: &str| {
            let (file, text) = part.split_once('\n').unwrap_or((part, ""));
            let (file, mut text) = (file.to_string(), text.to_string());
            if !text.is_empty() && !text.ends_with('\n') {
                text.push('\n');
            }
            Proof { file, text }
        };
        (edit, parts.map(proof).collect())
    }
}

impl Change {
    /// Edits share a check because what a function is proved from, the contracts of what it calls, stays as it is.
    fn is_of_a_contract(&self) -> bool {
        let named = |text: &str| text.contains("ensures") || text.contains("requires");
        let control = self.control.as_deref().unwrap_or("");
        let texts = [self.old.as_str(), self.new.as_str(), control];
        self.file.starts_with("src/") && texts.into_iter().any(named)
    }

    /// A control that is a text of the other two would show nothing.
    fn has_an_idle_control(&self) -> bool {
        let idle = |control: &String| *control == self.old || *control == self.new;
        self.control.as_ref().is_some_and(idle)
    }

    fn make(&self, files: &mut Files) -> Result<Option<String>, String> {
        let text = files
            .get_mut(&self.file)
            .ok_or(format!("no file {}", self.file))?;
        let (from, to) = match &self.within {
            None => (0, text.len()),
            Some(name) => place_of(text, name).ok_or(format!("no function {name}"))?,
        };
        let places: Vec<usize> = text[from..to]
            .match_indices(&self.old)
            .map(|m| from + m.0)
            .collect();
        let [at] = places[..] else {
            return Err(format!(
                "its text stands {} times in {}",
                places.len(),
                self.file
            ));
        };
        let function = function_at(text, at);
        text.replace_range(at..at + self.old.len(), &self.new);
        Ok(function)
    }
}

#[cfg(test)]
mod tests {
    use super::*;

    const EDIT: &str = "# Why.\nof: f T::g\nfile: src/lib.rt\nold:     a + 1\nnew:     a + 2\n";

    fn files(text: &str) -> Files {
        Files::from([("src/lib.rt".to_string(), text.to_string())])
    }

    #[test]
    fn is_read_and_made() {
        let edit = Edit::parse("e", EDIT).unwrap();
        assert_eq!(edit.of, ["f", "g"]);
        let mut files = files("fn f(a: u8) -> u8\n{\n    a + 1\n}\n");
        assert_eq!(edit.make(&mut files).unwrap(), [Some("f".to_string())]);
        assert_eq!(files["src/lib.rt"], "fn f(a: u8) -> u8\n{\n    a + 2\n}\n");
    }

    #[test]
    fn wants_its_text_once() {
        let edit = Edit::parse("e", EDIT).unwrap();
        assert!(edit.make(&mut files("fn f() {}\n")).is_err());
        assert!(edit.make(&mut files("    a + 1\n    a + 1\n")).is_err());
    }

    #[test]
    fn may_look_into_one_function() {
        let two = "fn f() {\n    a + 1\n}\n\nfn g() {\n    a + 1\n}\n";
        let edit = Edit::parse("e", &EDIT.replace("old:", "in: g\nold:")).unwrap();
        let mut files = files(two);
        assert_eq!(edit.make(&mut files).unwrap(), [Some("g".to_string())]);
        assert_eq!(
            files["src/lib.rt"],
            two.replace("g() {\n    a + 1", "g() {\n    a + 2")
        );
    }

    #[test]
    fn may_have_a_control() {
        let text = EDIT.to_string() + "control:     a + 1 + 0\nold: fn f\nnew: fn f2\n";
        let edit = Edit::parse("e", &text).unwrap();
        let control = edit.control().unwrap();
        assert_eq!((control.changes.len(), &control.of), (1, &edit.of));
        let mut files = files("fn f(a: u8) -> u8\n{\n    a + 1\n}\n");
        assert_eq!(control.make(&mut files).unwrap(), [Some("f".to_string())]);
        assert_eq!(
            files["src/lib.rt"],
            "fn f(a: u8) -> u8\n{\n    a + 1 + 0\n}\n"
        );
        assert!(Edit::parse("e", EDIT).unwrap().control().is_none());
    }

    #[test]
    fn wants_a_control_that_is_neither_program() {
        for text in ["    a + 1", "    a + 2", "    ensures { x }"] {
            assert!(Edit::parse("e", &format!("{EDIT}control: {text}\n")).is_err());
        }
        assert!(Edit::parse("e", "of: f\ncontrol: b\n").is_err());
    }

    #[test]
    fn may_bring_a_proof_of_its_shape() {
        let proof = "proof: proofs/f/Answers.antt\n-- Why.\nold: no line of the edit\n";
        assert!(Edit::parse("e", &format!("{EDIT}{proof}")).is_err());
        let text = format!("{EDIT}control:     a + 1 + 0\n{proof}");
        assert!(Edit::parse("e", &text.replace("proofs/f/Answers", "specs/A")).is_err());
        assert!(Edit::parse("e", &text.replace("proofs/f/Answers", "proofs/Laws")).is_err());
        let more = format!("{text}proof: proofs/f/Invariants.antt\n-- How.\n");
        let edit = Edit::parse("e", &more).unwrap();
        for edit in [edit.control().unwrap(), edit] {
            let mut files = files("fn f(a: u8) -> u8\n{\n    a + 1\n}\n");
            assert_eq!(edit.make(&mut files).unwrap().len(), 1);
            let there = &files["proofs/f/Answers.antt"];
            assert_eq!(there, "-- Why.\nold: no line of the edit\n");
            assert_eq!(files["proofs/f/Invariants.antt"], "-- How.\n");
        }
    }

    #[test]
    fn wants_functions_and_a_pair() {
        assert!(Edit::parse("e", "file: src/lib.rt\nold: a\nnew: b\n").is_err());
        assert!(Edit::parse("e", "file: specs/A.antt\nold: a\nnew: b\n").is_ok());
        assert!(Edit::parse("e", "of: f\nfile: src/lib.rt\nold: a\n").is_err());
        assert!(Edit::parse("e", "of: f\nnew: b\n").is_err());
        assert!(Edit::parse("e", &EDIT.replace("a + 2", "ensures { x }")).is_err());
    }
}
