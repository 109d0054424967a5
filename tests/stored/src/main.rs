//! Makes the stored lists, the list of the program `run_replay`, and the images and answers of the example
//! sheets. `stored` writes them;
//! `stored --check` makes them again and compares them with what is stored, byte for byte. Both say
//! what the lists hold, and fail if an instruction or a stop that the domain can have is missing.

use generate::statistics::Statistics;
use model::Outside;
use std::collections::BTreeMap;
use std::io::Write;
use std::path::{Path, PathBuf};
use std::process::ExitCode;
use stored::{CASES, Entry, OUTSIDE, by_model, entries, path, replay, runs, sheets, written};

/// A line of the report. Whether anyone reads it does not matter.
macro_rules! say {
    ($($words:tt)*) => {{
        let _ = writeln!(std::io::stdout(), $($words)*);
    }};
}

fn main() -> ExitCode {
    oracle::serve_if_child();
    let words: Vec<String> = std::env::args().skip(1).collect();
    let check = match words.iter().map(String::as_str).collect::<Vec<_>>()[..] {
        [] => false,
        ["--check"] => true,
        _ => {
            eprintln!("stored [--check]");
            return ExitCode::from(2);
        }
    };
    let settled = made().and_then(|files| {
        let mut files = files.iter();
        files.try_for_each(|(path, text)| settle(path, text, check))
    });
    match settled {
        Ok(()) => ExitCode::SUCCESS,
        Err(message) => {
            eprintln!("{message}");
            ExitCode::FAILURE
        }
    }
}

/// A file and what it is to hold.
type Made = (PathBuf, String);

/// Everything, made anew.
fn made() -> Result<Vec<Made>, String> {
    let mut files = vec![(path(CASES), cases()?)];
    let mut replayed = entries(&files[0].1);
    for (list, images, answer) in by_model() {
        let text = answered_by(list, images, answer);
        if list == OUTSIDE {
            replayed.extend(entries(&text));
        }
        files.push((path(list), text));
    }
    let text = replay::text(&replayed);
    say!("run_replay: cases {}", entries(&text).len());
    files.push((replay::file(), text));
    for name in sheets::names()? {
        let image = sheets::image(&name)?;
        let answer = sheet_answer(image.as_bytes())?;
        say!("{name}: {answer}");
        let file = |end: &str| sheets::folder().join(format!("{name}.{end}"));
        files.push((file("img"), image));
        files.push((file("out"), answer + "\n"));
    }
    Ok(files)
}

/// The published machine's answer, if that is what the oracle gave.
fn answered(image: &[u8], answer: String) -> Result<String, String> {
    match answer.starts_with("value ") || answer.starts_with("stop ") {
        true => Ok(answer),
        false => {
            let shown = String::from_utf8_lossy(image);
            Err(format!("{shown}has no answer to store: {answer}"))
        }
    }
}

/// What a sheet gives: the published machine's answer, or the model's where a request of document 02
/// departs from that machine.
fn sheet_answer(image: &[u8]) -> Result<String, String> {
    let answered_by = oracle::answered(&[image.to_vec()]).remove(0);
    match answered_by.judged {
        Ok((_, run)) if run.outside.is_some_and(Outside::by_request) => Ok(run.answer.to_string()),
        _ => answered(image, answered_by.line),
    }
}

/// The runs, with the published machine's answers.
fn cases() -> Result<String, String> {
    let images = runs();
    let answers = oracle::answers(&images);
    let mut statistics = Statistics::default();
    let mut entries = Vec::new();
    for (image, answer) in images.into_iter().zip(answers) {
        statistics.add(&image);
        let answer = answered(&image, answer)?;
        entries.push(Entry { image, answer });
    }
    say!("{CASES}: {statistics}");
    let missing = statistics.missing();
    match missing.is_empty() {
        true => Ok(written(&entries)),
        false => Err(format!("no case has {}", missing.join(", "))),
    }
}

/// A list whose answers are the model's, and how many it has of each.
fn answered_by(list: &str, images: Vec<Vec<u8>>, answer: fn(&[u8]) -> String) -> String {
    let answered = |image: Vec<u8>| Entry {
        answer: answer(&image),
        image,
    };
    let entries: Vec<Entry> = images.into_iter().map(answered).collect();
    let mut times: BTreeMap<String, usize> = BTreeMap::new();
    for entry in &entries {
        let words: Vec<&str> = entry.answer.split(' ').collect();
        let ending = match words[..] {
            ["value", ..] | ["pass"] => words[0].to_string(),
            [word, number, ..] => format!("{word} {number}"),
            _ => entry.answer.clone(),
        };
        *times.entry(ending).or_default() += 1;
    }
    say!("{list}: cases {}", entries.len());
    for (ending, times) in times {
        say!("  {ending}: {times}");
    }
    written(&entries)
}

/// Writes a file, or compares it with the stored one.
fn settle(path: &Path, text: &str, check: bool) -> Result<(), String> {
    let name = path.file_name().unwrap_or_default().to_string_lossy();
    if !check {
        say!("{name}: {} bytes written", text.len());
        return std::fs::write(path, text).map_err(|error| format!("{name}: {error}"));
    }
    let stored = std::fs::read(path).map_err(|error| format!("{name}: {error}"))?;
    match stored == text.as_bytes() {
        true => {
            say!("{name}: {} bytes, unchanged", text.len());
            Ok(())
        }
        false => Err(format!("{name}: made again, it is not what is stored")),
    }
}
