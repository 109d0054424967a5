//! Every path that README.md, CONTRIBUTING.md or a document of docs/ or docs/requests/ names is there. The specification and the requests are as
//! they were given, and are not read.

use documents::{is_there, paths};
use std::fs;
use std::path::{Path, PathBuf};

/// What was given to us.
const GIVEN: [&str; 2] = ["01-scope.md", "02-change-requests.md"];

fn names(folder: &Path) -> Vec<String> {
    let entries = fs::read_dir(folder).expect("a folder");
    let names = entries.map(|entry| entry.expect("an entry").file_name());
    let mut names: Vec<String> = names.filter_map(|name| name.into_string().ok()).collect();
    names.sort();
    names
}

#[test]
fn every_path_named_is_there() {
    let top: PathBuf = Path::new(env!("CARGO_MANIFEST_DIR")).join("../..");
    let crates = names(&top.join("crates"));
    let mut documents = vec![
        ("", "README.md".to_string()),
        ("", "CONTRIBUTING.md".to_string()),
    ];
    for folder in ["docs/", "docs/requests/"] {
        let ours = names(&top.join(folder)).into_iter();
        let ours = ours.filter(|name| name.ends_with(".md") && !GIVEN.contains(&name.as_str()));
        documents.extend(ours.map(|name| (folder, name)));
    }
    let (mut looked_at, mut missing) = (0, Vec::new());
    for (folder, name) in documents {
        let text = fs::read_to_string(top.join(folder).join(&name)).expect("a document");
        for named in paths(&text, folder, &crates) {
            looked_at += 1;
            if !named.places.iter().any(|place| is_there(&top, place)) {
                missing.push(format!(
                    "{folder}{name}:{}: {} is not there",
                    named.line, named.word
                ));
            }
        }
    }
    assert!(missing.is_empty(), "\n{}", missing.join("\n"));
    assert!(looked_at > 100, "only {looked_at} paths were found");
}
