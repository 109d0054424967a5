//! Whether every public function has two wrong programs, in must-fail/ or wrong/, and its crate's part of docs/CONTRACTS.md names each.

use crate::copy::{PARTS, files, names};
use crate::edit::Edit;
use crate::source::public;
use std::fs;
use std::path::Path;

/// How many wrong programs a public function has at the least.
const LEAST: usize = 2;

/// The part of the table for crates whose name is in no heading.
const OTHERS: &str = "The programs";

/// What is missing of these crates, a line each.
pub fn missing(top: &Path, crates: &[String]) -> Vec<String> {
    let table = fs::read_to_string(top.join("docs/CONTRACTS.md")).expect("docs/CONTRACTS.md");
    let mut lines = Vec::new();
    for name in crates {
        let folder = top.join("crates").join(name);
        let part = part_of(&table, name);
        let edits: Vec<Edit> = PARTS
            .iter()
            .flat_map(|part| edits(&folder.join(part)))
            .collect();
        for edit in edits
            .iter()
            .filter(|e| !part.contains(&format!("`{}`", e.name)))
        {
            lines.push(format!("{name}/{} is not in docs/CONTRACTS.md", edit.name));
        }
        for function in public(&files(&folder, &["src"])) {
            let count = edits.iter().filter(|e| e.of.contains(&function)).count();
            if count < LEAST {
                lines.push(format!("{name}: {function} has {count} wrong programs"));
            }
        }
    }
    lines
}

/// The part of the table whose heading names the crate, so that an edit of the same name in another crate does not stand for this one's.
fn part_of<'a>(table: &'a str, name: &str) -> &'a str {
    let with = |wanted: &str| {
        table.split("\n## ").find(|part| {
            let heading = part.lines().next().unwrap_or("");
            heading.split(", ").any(|word| word == wanted)
        })
    };
    with(name).or_else(|| with(OTHERS)).unwrap_or("")
}

fn edits(folder: &Path) -> Vec<Edit> {
    let read = |file: &str| {
        let text = fs::read_to_string(folder.join(file)).expect("an edit");
        Edit::parse(file.strip_suffix(".edit")?, &text).ok()
    };
    names(folder).iter().filter_map(|file| read(file)).collect()
}

#[cfg(test)]
mod tests {
    use super::*;

    /// Said here too, and not only after all edits were tried, which takes half an hour.
    #[test]
    fn nothing_is_missing() {
        let top = Path::new(env!("CARGO_MANIFEST_DIR")).join("../..");
        let crates = names(&top.join("crates"));
        assert!(crates.len() > 1);
        assert_eq!(missing(&top, &crates), Vec::<String>::new());
    }

    #[test]
    fn an_edit_counts_in_its_own_part() {
        let table = "# T\n\n## a, b\n\n`x`\n\n## c\n\n`y`\n\n## The programs\n\n`z`\n";
        for (name, edit) in [("a", "x"), ("b", "x"), ("c", "y"), ("d", "z")] {
            let part = part_of(table, name);
            let named: Vec<&str> = ["`x`", "`y`", "`z`"]
                .into_iter()
                .filter(|word| part.contains(word))
                .collect();
            assert_eq!(named, [format!("`{edit}`")]);
        }
    }
}
