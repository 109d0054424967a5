//! The functions of a crate, by its text: where each begins and ends, and which calls which.

use std::collections::{BTreeMap, BTreeSet};

/// The files of a crate, by their path in it.
pub type Files = BTreeMap<String, String>;

/// The name of the function that a line declares, and how far the line is indented.
fn declared(line: &str) -> Option<(String, usize)> {
    let rest = line.trim_start();
    let indent = line.len() - rest.len();
    let rest = rest.strip_prefix("pub ").unwrap_or(rest);
    let rest = rest.strip_prefix("extern \"C\" ").unwrap_or(rest);
    let name = rest.strip_prefix("fn ")?;
    let end = name.find(|c: char| !is_in_name(c))?;
    Some((name[..end].to_string(), indent))
}

fn is_in_name(c: char) -> bool {
    c.is_ascii_alphanumeric() || c == '_'
}

/// Each function with the text from its first line to its closing brace, and where that begins. Formatted text is
/// assumed: the brace stands as far in as the function's first line.
fn functions(text: &str) -> Vec<(String, usize, &str)> {
    let mut found = Vec::new();
    let mut open: Option<(String, usize, usize)> = None;
    let mut at = 0;
    for line in text.split_inclusive('\n') {
        let next = at + line.len();
        match &open {
            None => open = declared(line).map(|(name, indent)| (name, indent, at)),
            Some((name, indent, from)) => {
                if line.trim_end() == format!("{:indent$}}}", "", indent = *indent) {
                    found.push((name.clone(), *from, &text[*from..next]));
                    open = None;
                }
            }
        }
        at = next;
    }
    found
}

/// The function that has the place `at` of a file.
pub fn function_at(text: &str, at: usize) -> Option<String> {
    let has = |from: usize, body: &str| from <= at && at < from + body.len();
    let all = functions(text);
    all.into_iter()
        .find(|(_, from, body)| has(*from, body))
        .map(|(name, _, _)| name)
}

/// The function that has a line of a file, counted from 1.
pub fn function_on(text: &str, line: usize) -> Option<String> {
    let lines = text.split_inclusive('\n').take(line.checked_sub(1)?);
    function_at(text, lines.map(str::len).sum())
}

/// Where a function of this name begins and ends in a file.
pub fn place_of(text: &str, name: &str) -> Option<(usize, usize)> {
    let found = functions(text).into_iter().find(|f| f.0 == name)?;
    Some((found.1, found.1 + found.2.len()))
}

/// Whether a text calls a function of this name, with types written at the call or without.
fn calls(body: &str, name: &str) -> bool {
    let calls = [format!("{name}("), format!("{name}::<")];
    let begins = |at: usize| !body[..at].ends_with(is_in_name) && !body[..at].ends_with("fn ");
    calls
        .iter()
        .any(|call| body.match_indices(call).any(|(at, _)| begins(at)))
}

/// The names of the public functions.
pub fn public(files: &Files) -> BTreeSet<String> {
    let first = |body: &str| body.trim_start().starts_with("pub ");
    let all = files.values().flat_map(|text| functions(text));
    all.filter(|f| first(f.2)).map(|f| f.0).collect()
}

/// The functions that `from` reaches by calls within the crate, itself included.
pub fn reached(files: &Files, from: &str) -> BTreeSet<String> {
    let all: Vec<_> = files.values().flat_map(|text| functions(text)).collect();
    let (mut reached, mut todo) = (BTreeSet::new(), vec![from.to_string()]);
    while let Some(name) = todo.pop() {
        if !reached.insert(name.clone()) {
            continue;
        }
        for (_, _, body) in all.iter().filter(|f| f.0 == name) {
            todo.extend(
                all.iter()
                    .filter(|f| calls(body, &f.0))
                    .map(|f| f.0.clone()),
            );
        }
    }
    reached
}

#[cfg(test)]
mod tests {
    use super::*;

    const TEXT: &str = "const T: u8 = 1;\n\nfn low() -> u8 {\n    7\n}\n\nimpl C {\n    pub fn mid(self) -> u8 {\n        low()\n    }\n}\n\npub fn top() -> u8\n    ensures { x }\n{\n    below() + c.mid()\n}\n";

    #[test]
    fn a_place_is_in_a_function_or_in_none() {
        assert_eq!(function_at(TEXT, TEXT.find("= 1").unwrap()), None);
        assert_eq!(
            function_at(TEXT, TEXT.find("    7").unwrap()).unwrap(),
            "low"
        );
        assert_eq!(
            function_at(TEXT, TEXT.find("        low").unwrap()).unwrap(),
            "mid"
        );
        assert_eq!(
            function_at(TEXT, TEXT.find("ensures").unwrap()).unwrap(),
            "top"
        );
        let on: Vec<_> = (0..5).map(|line| function_on(TEXT, line)).collect();
        let low = || Some("low".to_string());
        assert_eq!(on, [None, None, None, low(), low()]);
    }

    #[test]
    fn calls_are_followed() {
        let files = Files::from([("src/lib.rt".to_string(), TEXT.to_string())]);
        assert_eq!(
            public(&files).into_iter().collect::<Vec<_>>(),
            ["mid", "top"]
        );
        let names: Vec<_> = reached(&files, "top").into_iter().collect();
        assert_eq!(names, ["low", "mid", "top"]);
        assert_eq!(reached(&files, "low").len(), 1);
    }
}
