//! Edits that are tried in one check, because each lies in functions of its own.

use crate::edit::Edit;
use crate::source::Files;

pub struct Placed {
    pub edit: Edit,
    /// The functions in which it lies; a place outside every function is none.
    pub functions: Vec<Option<String>>,
    /// Whether it is the control of the edit of its name, and no wrong program.
    pub is_control: bool,
}

impl Placed {
    pub fn new(edit: Edit, files: &Files) -> Result<Placed, String> {
        let functions = edit.make(&mut files.clone())?;
        Ok(Placed {
            edit,
            functions,
            is_control: false,
        })
    }

    /// The control of an edit, where it has one.
    pub fn control(&self, files: &Files) -> Option<Placed> {
        let edit = self.edit.control()?;
        let functions = edit.make(&mut files.clone()).ok()?;
        Some(Placed {
            edit,
            functions,
            is_control: true,
        })
    }

    fn meets(&self, other: &Placed) -> bool {
        let of = |f: &Option<String>| f.is_none() || other.functions.contains(f);
        other.functions.contains(&None) || self.functions.iter().any(of)
    }
}

pub struct Batch {
    /// The crate's files with all of the edits made.
    pub files: Files,
    pub edits: Vec<Placed>,
}

impl Batch {
    pub fn alone(placed: Placed, files: &Files) -> Batch {
        let mut files = files.clone();
        placed.edit.make(&mut files).expect("it was made before");
        let edits = vec![placed];
        Batch { files, edits }
    }

    /// Takes one edit more, if it meets none that is there.
    fn join(&mut self, placed: Placed) -> Result<(), Placed> {
        let mut files = self.files.clone();
        if self.edits.iter().any(|other| placed.meets(other))
            || placed.edit.make(&mut files).is_err()
        {
            return Err(placed);
        }
        self.files = files;
        self.edits.push(placed);
        Ok(())
    }
}

/// Puts each edit to the first others that it does not meet.
pub fn batches(files: &Files, edits: Vec<Placed>) -> Vec<Batch> {
    let mut all: Vec<Batch> = Vec::new();
    for edit in edits {
        let mut left = Some(edit);
        for batch in &mut all {
            left = left.and_then(|placed| batch.join(placed).err());
        }
        all.extend(left.map(|placed| Batch::alone(placed, files)));
    }
    all
}

#[cfg(test)]
mod tests {
    use super::*;

    const TEXT: &str = "const T: u8 = 1;\n\nfn f() -> u8 {\n    2\n}\n\nfn g() -> u8 {\n    3\n}\n";

    fn files() -> Files {
        Files::from([("src/lib.rt".to_string(), TEXT.to_string())])
    }

    fn placed(name: &str, old: &str, control: &str, files: &Files) -> Placed {
        let text = format!("of: f\nfile: src/lib.rt\nold: {old}\nnew: 9\n{control}");
        Placed::new(Edit::parse(name, &text).unwrap(), files).unwrap()
    }

    #[test]
    fn a_control_lies_where_its_edit_does() {
        let files = files();
        let edit = placed("f", "2", "control: 1 + 1\n", &files);
        let control = edit.control(&files).unwrap();
        assert!(control.is_control && !edit.is_control);
        assert_eq!(control.functions, edit.functions);
        let all = batches(&files, vec![edit, placed("g", "3", "", &files), control]);
        let sizes: Vec<usize> = all.iter().map(|b| b.edits.len()).collect();
        assert_eq!(sizes, [2, 1]);
    }

    #[test]
    fn edits_of_one_function_are_apart() {
        let files = files();
        let edit = |name: &str, old: &str| placed(name, old, "", &files);
        let all = batches(
            &files,
            vec![
                edit("t", "= 1"),
                edit("f1", "2"),
                edit("f2", "    2"),
                edit("g", "3"),
            ],
        );
        let names: Vec<Vec<&str>> = all
            .iter()
            .map(|b| b.edits.iter().map(|p| p.edit.name.as_str()).collect())
            .collect();
        assert_eq!(names, [vec!["t"], vec!["f1", "g"], vec!["f2"]]);
    }
}
