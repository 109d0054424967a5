//! A copy of the repository in a temporary folder, in which a crate is edited and checked.

use crate::names::Names;
use crate::prover::Log;
use crate::source::Files;
use std::fs;
use std::path::{Path, PathBuf};
use std::process::Command;

/// The folders of a crate that have edits.
pub const PARTS: [&str; 2] = ["must-fail", "wrong"];

/// The folders of a crate that a check reads.
const READ: [&str; 3] = ["src", "specs", "proofs"];

/// What a check leaves for the next one.
const KEPT: &str = "out/incremental";

pub struct Copy {
    root: PathBuf,
}

/// The names in a folder, in order; none where there is no such folder.
pub fn names(folder: &Path) -> Vec<String> {
    let Ok(entries) = fs::read_dir(folder) else {
        return Vec::new();
    };
    let mut all: Vec<String> = entries
        .map(|e| e.unwrap().file_name().into_string().unwrap())
        .collect();
    all.sort();
    all
}

/// The files in these parts of a crate's folder, and below them.
pub fn files(folder: &Path, parts: &[&str]) -> Files {
    let mut all = Files::new();
    parts.iter().for_each(|part| below(folder, part, &mut all));
    all
}

fn below(folder: &Path, path: &str, all: &mut Files) {
    for name in names(&folder.join(path)) {
        let path = format!("{path}/{name}");
        if folder.join(&path).is_dir() {
            below(folder, &path, all);
        } else {
            let text = fs::read_to_string(folder.join(&path)).expect("a file");
            all.insert(path, text);
        }
    }
}

/// The files of a crate that a check reads.
pub fn crate_files(top: &Path, name: &str) -> Files {
    files(&top.join("crates").join(name), &READ)
}

/// The edits of a crate, by name, in wrong/ and in must-fail/.
pub fn edits(top: &Path, name: &str) -> Vec<(String, String)> {
    let mut all = Vec::new();
    for part in PARTS {
        let folder = top.join("crates").join(name).join(part);
        let text = |file: &str| fs::read_to_string(folder.join(file)).expect("an edit");
        let edit = |f: &String| Some((f.strip_suffix(".edit")?.to_string(), text(f)));
        all.extend(names(&folder).iter().filter_map(edit));
    }
    all
}

/// What a check kept, in another place: a check replaces the files of what it has checked, and changes none, so they may be links.
fn linked(from: &Path, to: &Path) -> std::io::Result<()> {
    fs::create_dir_all(to)?;
    for entry in fs::read_dir(from)? {
        let entry = entry?;
        let (one, other) = (entry.path(), to.join(entry.file_name()));
        if entry.file_type()?.is_dir() {
            linked(&one, &other)?;
        } else if one.extension().is_none_or(|e| e != "oantt")
            || fs::hard_link(&one, &other).is_err()
        {
            fs::copy(&one, &other)?;
        }
    }
    Ok(())
}

impl Copy {
    /// The sources of all crates, without what checks left there and without the edits.
    pub fn new(top: &Path, root: PathBuf) -> Copy {
        for name in names(&top.join("crates")) {
            let to = root.join("crates").join(&name);
            for part in names(&top.join("crates").join(&name)) {
                if part != "out" && !PARTS.contains(&part.as_str()) {
                    fs::create_dir_all(&to).expect("a folder");
                    let from = top.join("crates").join(&name).join(part);
                    let done = Command::new("cp").arg("-R").arg(&from).arg(&to).status();
                    assert!(
                        done.is_ok_and(|s| s.success()),
                        "{} is copied",
                        from.display()
                    );
                }
            }
        }
        for file in ["crates.txt", "HANDLES"] {
            let from = top.join(file);
            if from.exists() {
                fs::copy(from, root.join(file)).expect("a file is copied");
            }
        }
        Copy { root }
    }

    fn folder(&self, name: &str) -> PathBuf {
        self.root.join("crates").join(name)
    }

    /// Makes the crate's files these.
    fn put(&self, name: &str, files: &Files) {
        for (path, text) in files {
            let file = self.folder(name).join(path);
            if fs::read_to_string(&file).ok().as_ref() != Some(text) {
                fs::create_dir_all(file.parent().expect("a folder")).expect("a folder");
                fs::write(file, text).expect("a file is written");
            }
        }
    }

    /// Makes the crate's files these again, where there are others.
    pub fn restore(&self, name: &str, files: &Files) {
        for path in crate_files(&self.root, name).keys() {
            if !files.contains_key(path) {
                fs::remove_file(self.folder(name).join(path)).expect("a file is removed");
            }
        }
        self.put(name, files);
    }

    /// What `rt check` says of the crate with these flags.
    fn said(&self, name: &str, flags: &[&str]) -> String {
        let said = Command::new("rt")
            .arg("check")
            .args(["--jobs", "1"])
            .args(flags)
            .current_dir(self.folder(name))
            .output()
            .expect("rt");
        String::from_utf8_lossy(&said.stdout).into_owned() + &String::from_utf8_lossy(&said.stderr)
    }

    /// Proves the crate as it is, and puts what that kept into a folder, from which each check of an edit begins.
    pub fn prove(&self, name: &str, files: &Files, seed: &Path) -> Result<(), String> {
        self.restore(name, files);
        let log = Log(self.said(name, &[]));
        if !log.proved() {
            return Err(format!("{name} is not proved: {}", log.first_error().text));
        }
        let kept = self.folder(name).join(KEPT);
        linked(&kept, seed).map_err(|e| format!("what a check kept is not copied: {e}"))
    }

    /// Checks the crate with these files, over what its proof kept.
    pub fn check(&self, name: &str, files: &Files, seed: &Path) -> Log {
        let kept = self.folder(name).join(KEPT);
        let _ = fs::remove_dir_all(&kept);
        linked(seed, &kept).expect("what a check kept is copied");
        self.restore(name, files);
        Log(self.said(name, &[]))
    }

    /// The names that Rattle makes of the crate with these files; none where it does not compile.
    pub fn names(&self, name: &str, files: &Files) -> Option<Names> {
        self.restore(name, files);
        let listed = self.root.join("names");
        let _ = fs::remove_dir_all(&listed);
        let flags = ["--generated", listed.to_str()?, "--old-names"];
        self.said(name, &flags);
        let text = fs::read_to_string(listed.join("names.json")).ok()?;
        Names::read(name, &text)
    }
}

#[cfg(test)]
mod tests {
    use super::*;

    #[test]
    fn files_are_read_below_their_part_and_put_back() {
        let top = std::env::temp_dir().join(format!("wrong-copy-{}", std::process::id()));
        let folder = top.join("of/crates/k");
        let write = |path: &str, text: &str| {
            let file = folder.join(path);
            fs::create_dir_all(file.parent().unwrap()).unwrap();
            fs::write(file, text).unwrap();
        };
        write("src/lib.rt", "fn f() {}\n");
        write("proofs/m/f/Answers.antt", "-- f\n");
        write("out/incremental/a.oantt", "");
        write("wrong/e.edit", "");
        fs::write(top.join("of/crates.txt"), "k:\n").unwrap();
        let right = crate_files(&top.join("of"), "k");
        assert_eq!(right.len(), 2);
        assert_eq!(right["proofs/m/f/Answers.antt"], "-- f\n");
        let copy = Copy::new(&top.join("of"), top.join("copy"));
        let mut wrong = right.clone();
        wrong.insert("src/lib.rt".to_string(), "fn f() { }\n".to_string());
        wrong.insert("proofs/m/f/Invariants.antt".to_string(), String::new());
        copy.put("k", &wrong);
        assert_eq!(crate_files(&top.join("copy"), "k"), wrong);
        copy.restore("k", &right);
        assert_eq!(crate_files(&top.join("copy"), "k"), right);
        assert_eq!(names(&top.join("copy/crates/k")), ["proofs", "src"]);
        fs::remove_dir_all(top).unwrap();
    }
}
