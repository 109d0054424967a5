//! The paths that a document names, and whether they are there.
//!
//! A word of a document is a path if it has a `/` and begins with a folder of the repository's top, with a crate's name (its path is under
//! crates/ then), or with one of a crate's parts (`specs/Lib.antt`: some crate or package has it). The target of a link without `:` is one
//! too, from the document's own folder. A `*` stands for any part of a name, a `/` at the end for a folder. A word with `..`, or with a
//! part in capitals alone (`crates/NAME/src`), says how paths look, and is none.

use std::fs;
use std::path::Path;

/// The folders of the top; a path that begins with one is looked for even where the folder itself has gone.
const TOP: [&str; 8] = [
    ".ci", "bench", "bindings", "crates", "docs", "sheets", "tests", "tools",
];

/// The parts of a crate, or of a Cargo package.
const PARTS: [&str; 5] = ["src", "specs", "proofs", "must-fail", "wrong"];

/// A path that a document names: on which line, and where it may be, from the repository's top. One such place is enough.
#[derive(Debug, PartialEq, Eq)]
pub struct Named {
    pub line: usize,
    pub word: String,
    pub places: Vec<String>,
}

/// All paths that a text names, the document lying in `folder` (empty, or with a `/` at its end).
pub fn paths(text: &str, folder: &str, crates: &[String]) -> Vec<Named> {
    let mut found = Vec::new();
    for (line, text) in (1..).zip(text.lines()) {
        let mut add = |word: &str, places: Vec<String>| {
            if !places.is_empty() {
                let word = word.to_string();
                found.push(Named { line, word, places });
            }
        };
        words(text).for_each(|word| add(word, places(word, crates)));
        targets(text).for_each(|target| add(target, vec![from(folder, target)]));
    }
    found
}

fn words(line: &str) -> impl Iterator<Item = &str> {
    let parts = line.split(|c: char| c.is_whitespace() || "`()[]|,;\"'".contains(c));
    parts.map(|word| match word.strip_suffix(['.', ':']) {
        Some(shorter) if !shorter.ends_with('.') => shorter,
        _ => word,
    })
}

/// The targets of links to files.
fn targets(line: &str) -> impl Iterator<Item = &str> {
    let ends = line
        .split("](")
        .skip(1)
        .filter_map(|rest| rest.split(')').next());
    let files = ends.filter(|target| !target.contains(':'));
    files
        .map(|target| target.split('#').next().unwrap_or(""))
        .filter(|target| !target.is_empty())
}

/// A link's target, from the top; `../` leads to the folder that the document's folder is in.
fn from(folder: &str, target: &str) -> String {
    match target.strip_prefix("../") {
        Some(rest) => {
            let own = folder.trim_end_matches('/');
            let above = own.rfind('/').map_or("", |end| &own[..=end]);
            format!("{above}{rest}")
        }
        None => format!("{folder}{target}"),
    }
}

/// Where a word may be as a path; nowhere if it is none.
fn places(word: &str, crates: &[String]) -> Vec<String> {
    let mut parts = word.split('/');
    let (first, second) = (parts.next().unwrap_or(""), parts.next());
    let Some(second) = second else {
        return Vec::new();
    };
    if word.contains("..") || word.split('/').any(in_capitals) {
        Vec::new()
    } else if first == "sheets" && !second.is_empty() && !second.contains('.') {
        vec![format!("{word}.*")]
    } else if TOP.contains(&first) {
        vec![word.to_string()]
    } else if crates.iter().any(|name| name == first) || PARTS.contains(&second) {
        vec![format!("crates/{word}")]
    } else if PARTS.contains(&first) {
        ["crates", "tests", "tools", "bindings"]
            .map(|top| format!("{top}/*/{word}"))
            .to_vec()
    } else {
        Vec::new()
    }
}

fn in_capitals(part: &str) -> bool {
    !part.is_empty() && part.chars().all(|c| c.is_ascii_uppercase() || c == '_')
}

/// Whether a path with `*` in it is there.
pub fn is_there(top: &Path, path: &str) -> bool {
    match path.split_once('/') {
        None => entries(top).iter().any(|name| fits(path, name)),
        Some((first, "")) => folders(top, first).next().is_some(),
        Some((first, rest)) => folders(top, first).any(|name| is_there(&top.join(name), rest)),
    }
}

fn folders(top: &Path, pattern: &str) -> impl Iterator<Item = String> {
    let names = entries(top).into_iter();
    names.filter(move |name| fits(pattern, name) && top.join(name).is_dir())
}

fn entries(folder: &Path) -> Vec<String> {
    let entries = fs::read_dir(folder).into_iter().flatten().flatten();
    entries
        .filter_map(|entry| entry.file_name().into_string().ok())
        .collect()
}

fn fits(pattern: &str, name: &str) -> bool {
    match pattern.split_once('*') {
        None => pattern == name,
        Some((start, rest)) => name.strip_prefix(start).is_some_and(|left| {
            (0..=left.len()).any(|at| left.is_char_boundary(at) && fits(rest, &left[at..]))
        }),
    }
}

#[cfg(test)]
mod tests {
    use super::*;

    fn found(text: &str) -> Vec<Vec<String>> {
        let crates = ["image".to_string(), "rl_run".to_string()];
        let named = paths(text, "docs/", &crates);
        named.into_iter().map(|named| named.places).collect()
    }

    #[test]
    fn finds_paths_of_the_top_with_their_lines() {
        let named = paths("a\nsee `tests/run`, or docs/IMAGE.md.", "docs/", &[]);
        let lines: Vec<(usize, &str)> = named.iter().map(|n| (n.line, &n.word[..])).collect();
        assert_eq!(lines, [(2, "tests/run"), (2, "docs/IMAGE.md")]);
        assert_eq!(found("(`.ci/run`, `sheets/`)"), [[".ci/run"], ["sheets/"]]);
    }

    #[test]
    fn finds_paths_of_a_crate() {
        assert_eq!(
            found("`Loads` (image/specs/Answer.antt)"),
            [["crates/image/specs/Answer.antt"]]
        );
        assert_eq!(found("gone/specs/X.antt"), [["crates/gone/specs/X.antt"]]);
        assert_eq!(
            found("`specs/Lib.antt`")[0][..2],
            ["crates/*/specs/Lib.antt", "tests/*/specs/Lib.antt"]
        );
    }

    #[test]
    fn finds_targets_of_links() {
        assert_eq!(found("[x](IMAGE.md#code)"), [["docs/IMAGE.md"]]);
        assert_eq!(found("[x](https://example.org/a) [y](#code)").len(), 0);
        assert_eq!(found("[rl](../rl)"), [["rl"]]);
        assert_eq!(from("docs/requests/", "../IMAGE.md"), "docs/IMAGE.md");
    }

    #[test]
    fn leaves_out_what_is_no_path() {
        assert_eq!(
            found("load, check and/or run: image, 1/2, target/bin/x").len(),
            0
        );
        assert_eq!(
            found("`crates/NAME/wrong/*.edit`, tests/.. and proofs/FUNCTION/Proof.antt").len(),
            0
        );
    }

    #[test]
    fn a_sheet_may_stand_without_its_ending() {
        assert_eq!(found("./rl run sheets/pickup"), [["sheets/pickup.*"]]);
        assert_eq!(found("sheets/pickup.img"), [["sheets/pickup.img"]]);
    }

    #[test]
    fn looks_for_files_and_folders() {
        let here = Path::new(env!("CARGO_MANIFEST_DIR"));
        for path in [
            "src/lib.rs",
            "src/",
            "src",
            "*/lib.rs",
            "Cargo.*",
            "s*c/l*.rs",
        ] {
            assert!(is_there(here, path), "{path}");
        }
        for path in [
            "src/lib",
            "src/lib.rs/",
            "lib.rs",
            "*/main.rs",
            "srcs/",
            "Cargo.tom",
        ] {
            assert!(!is_there(here, path), "{path}");
        }
    }
}
