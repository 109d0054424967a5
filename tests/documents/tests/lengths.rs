//! The least lengths of the work slices are one list, though three languages and a document write it: the crates that test them, the
//! bindings, and docs/OPERATIONS.md. The header for C has the most bytes of an image too.

use std::collections::BTreeMap;
use std::fs;
use std::path::Path;

type Lengths = BTreeMap<String, usize>;

/// The slices' names, in capitals, and lengths, from each line of a file that `form` takes apart.
fn lengths(path: &str, form: impl Fn(&str) -> Option<(&str, &str)>) -> Lengths {
    let top = Path::new(env!("CARGO_MANIFEST_DIR")).join("../..");
    let text = fs::read_to_string(top.join(path)).expect(path);
    let found = text.lines().filter_map(form).map(|(name, length)| {
        let digits = length.replace([',', '_'], "");
        (name.to_uppercase(), digits.parse().expect("a length"))
    });
    found.collect()
}

/// `pub const BYTES: usize = 32768;`
fn constant(line: &str) -> Option<(&str, &str)> {
    let declared = line.strip_prefix("pub const ")?.strip_suffix(';')?;
    declared.split_once(": usize = ")
}

/// `RL_VM_BYTES = 32768,`
fn enumerator(line: &str) -> Option<(&str, &str)> {
    line.trim().strip_prefix("RL_VM_")?.split_once(" = ")
}

/// A row of a table: the slice, its elements, its length, and why.
fn row(line: &str) -> Option<(&str, &str)> {
    let cells: Vec<&str> = line.split('|').map(str::trim).collect();
    match cells[..] {
        ["", name, "u8" | "u16" | "u64" | "usize", length, _, ""] => {
            Some((name.trim_matches('`'), length))
        }
        _ => None,
    }
}

#[test]
fn one_list_of_lengths() {
    let crates = ["image", "rl_check", "run_answers"];
    let tested = crates.map(|name| lengths(&format!("crates/{name}/src/least.rt"), constant));
    let tested: Lengths = tested.into_iter().flatten().collect();
    assert_eq!(tested.len(), 16);
    assert_eq!(lengths("bindings/rust/src/least.rs", constant), tested);
    assert_eq!(lengths("docs/OPERATIONS.md", row), tested);
    let mut with_most = tested;
    with_most.extend(lengths("crates/image/src/lib.rt", constant));
    assert_eq!(lengths("bindings/c/rl_vm.h", enumerator), with_most);
}
