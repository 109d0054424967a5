//! Tries the wrong programs of the crates; README.md says what they are and when one passes.

mod batch;
mod copy;
mod coverage;
mod edit;
mod judge;
mod names;
mod prover;
mod source;
mod trials;
mod work;

use copy::PARTS;
use std::path::Path;
use std::process::ExitCode;
use work::Work;

/// A crate, and those of its edits that are tried; all where none is named.
struct Wanted {
    name: String,
    only: Vec<String>,
}

fn main() -> ExitCode {
    let top = Path::new(env!("CARGO_MANIFEST_DIR"))
        .join("../..")
        .canonicalize()
        .expect("the repository");
    let named: Vec<String> = std::env::args().skip(1).collect();
    let crates = if named.is_empty() {
        wanted(&with_edits(&top))
    } else {
        wanted(&named)
    };
    let whole = if named.is_empty() {
        copy::names(&top.join("crates"))
    } else {
        whole(&crates)
    };
    let missing = coverage::missing(&top, &whole);
    missing.iter().for_each(|line| println!("FAILED {line}"));
    let room = std::env::temp_dir().join(format!("wrong-{}", std::process::id()));
    let work = Work::new(&top, &room, &crates);
    std::thread::scope(|scope| {
        for number in 0..jobs() {
            let work = &work;
            scope.spawn(move || work.go_on(number));
        }
    });
    let _ = std::fs::remove_dir_all(room);
    let (refused, failed) = work.counts();
    println!(
        "wrong programs: {refused} refused for a fact of their function, {failed} not; {} missing",
        missing.len()
    );
    if failed + missing.len() == 0 && refused > 0 {
        ExitCode::SUCCESS
    } else {
        ExitCode::FAILURE
    }
}

/// The crates that are named, as CRATE or CRATE/EDIT, each once.
fn wanted(named: &[String]) -> Vec<Wanted> {
    let mut all: Vec<Wanted> = Vec::new();
    for word in named {
        let (name, edit) = match word.split_once('/') {
            Some((name, edit)) => (name, Some(edit.to_string())),
            None => (word.as_str(), None),
        };
        match all.iter_mut().find(|wanted| wanted.name == name) {
            Some(there) => there.only.extend(edit),
            None => all.push(Wanted {
                name: name.to_string(),
                only: edit.into_iter().collect(),
            }),
        }
    }
    all
}

/// Those of which all edits are tried.
fn whole(crates: &[Wanted]) -> Vec<String> {
    let all = crates.iter().filter(|wanted| wanted.only.is_empty());
    all.map(|wanted| wanted.name.clone()).collect()
}

fn jobs() -> usize {
    let set = std::env::var("RT_JOBS").ok().and_then(|n| n.parse().ok());
    set.unwrap_or_else(|| std::thread::available_parallelism().map_or(1, |n| n.get()))
}

/// The crates that have wrong programs.
fn with_edits(top: &Path) -> Vec<String> {
    let has = |name: &String| {
        let folder = top.join("crates").join(name);
        PARTS
            .iter()
            .any(|part| !copy::names(&folder.join(part)).is_empty())
    };
    let all = copy::names(&top.join("crates")).into_iter();
    all.filter(has).collect()
}

#[cfg(test)]
mod tests {
    use super::*;

    #[test]
    fn edits_of_one_crate_are_wanted_together() {
        let words = ["a/x", "b", "a/y"].map(str::to_string);
        let all = wanted(&words);
        let said: Vec<_> = all
            .iter()
            .map(|w| (w.name.as_str(), w.only.len()))
            .collect();
        assert_eq!(said, [("a", 2), ("b", 0)]);
    }
}
