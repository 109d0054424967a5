//! The generators give what they gave, and what they promise.

use generate::{FIXED, SEEDED, digest, fixed, seeded};
use model::{Answer, BUDGET, Checked, ROOM};

fn images(generator: &str, seed: u64, count: u64) -> Vec<Vec<u8>> {
    let made = (0..count).map(|n| seeded(generator, seed, n));
    made.map(|image| image.expect("a known generator"))
        .collect()
}

fn list(name: &str) -> Vec<generate::Case> {
    fixed(name).expect("a known list")
}

/// A change in a generator shows here, and is then to be seen in the stored lists too.
#[test]
fn digests() {
    let mut found = Vec::new();
    for generator in SEEDED {
        for seed in [1, 2] {
            let images = images(generator, seed, 200);
            let digest = digest(images.iter().map(Vec::as_slice));
            found.push(format!("{generator} {seed} {digest:016X}"));
        }
    }
    for name in FIXED {
        let cases = list(name);
        let digest = digest(cases.iter().map(|case| case.bytes.as_slice()));
        found.push(format!("{name} {} {digest:016X}", cases.len()));
    }
    let known = include_str!("digests.txt");
    assert_eq!(found.join("\n"), known.trim_end());
}

#[test]
fn passing_programs_pass() {
    for (seed, count) in [(1, 4_000), (3, 4_000)] {
        for bytes in images("passing", seed, count) {
            let shown = String::from_utf8_lossy(&bytes);
            let image = model::load(&bytes).unwrap_or_else(|e| panic!("{e}\n{shown}"));
            assert_eq!(model::stack_check(&image), Checked::Pass, "{shown}");
            let answer = model::run(&image, BUDGET, ROOM);
            if let Answer::Stop { number, .. } = answer {
                assert!(![30, 31, 32, 33, 36].contains(&number), "{answer}\n{shown}");
            }
        }
    }
}

/// Whatever a generator gives: what passes the check is stopped by none of these.
#[test]
fn what_passes_is_sound() {
    for generator in ["mutated", "instructions", "bytes"] {
        let mut passed = 0;
        for bytes in images(generator, 5, 4_000) {
            let Ok(image) = model::load(&bytes) else {
                panic!("{generator} gave lines that don't load")
            };
            if model::stack_check(&image) != Checked::Pass {
                continue;
            }
            passed += 1;
            if let Answer::Stop { number, .. } = model::run(&image, 100_000, ROOM) {
                assert!(![30, 31, 32, 33, 36].contains(&number), "stop {number}");
            }
        }
        assert!(passed > 10, "{generator}: {passed} pass");
    }
}

/// Most runs do real work and end in a value, many in a late stop.
#[test]
fn passing_programs_work() {
    let mut values = 0;
    let mut late = 0;
    let mut counts = Vec::new();
    for bytes in images("passing", 9, 2_000) {
        let image = model::load(&bytes).expect("it loads");
        match model::run(&image, BUDGET, ROOM) {
            Answer::Value { count, .. } => {
                values += 1;
                counts.push(count);
            }
            Answer::Stop { count, .. } => late += (count > 20) as u64,
        }
    }
    counts.sort_unstable();
    let median = counts[counts.len() / 2];
    assert!(values > 1_000, "{values} of 2000 end in a value");
    assert!(
        late > 300,
        "{late} of 2000 stop after more than 20 instructions"
    );
    assert!(
        median > 40,
        "half of the values come within {median} instructions"
    );
}

/// The names of the fixed lists say what is expected; the model has to say so too.
#[test]
fn names_hold() {
    let first_number = |text: &str| {
        let digits = text.trim_start_matches(|c: char| !c.is_ascii_digit());
        let end = digits.find(|c: char| !c.is_ascii_digit());
        digits[..end.unwrap_or(digits.len())].parse::<u64>().ok()
    };
    let mut judged = 0;
    for case in list("refusals") {
        if case.name.starts_with("a Function") {
            continue;
        }
        let refusal = model::load(&case.bytes).expect_err(&case.name);
        assert_eq!(
            Some(refusal.number as u64),
            first_number(&case.name),
            "{}",
            case.name
        );
        judged += 1;
    }
    assert!(judged > 200);
    for case in list("targeted").into_iter().chain(list("limits")) {
        let Some((_, told)) = case.name.split_once(": ") else {
            continue;
        };
        if let Some(number @ 30..=44) = first_number(told) {
            let line = model::line(&case.bytes);
            assert!(
                line.starts_with(&format!("stop {number} ")),
                "{}: {line}",
                case.name
            );
            judged += 1;
        }
    }
    assert!(judged > 230, "{judged}");
}

/// The stack check's answers, as the names say them.
#[test]
fn checks_hold() {
    for case in list("checks") {
        let image = model::load(&case.bytes).unwrap_or_else(|e| panic!("{}: {e}", case.name));
        let answer = match model::stack_check(&image) {
            Checked::Pass => "pass".to_string(),
            Checked::Fault {
                number,
                chunk,
                offset,
            } => format!("{number} {chunk} {offset}"),
        };
        let told = case.name.split(": ").next();
        assert_eq!(told, Some(answer.as_str()), "{}", case.name);
    }
}

/// At a most and below it nothing stops a run; above it 45, 46, 47 or a refusal does.
#[test]
fn limits_are_sharp() {
    for case in list("limits") {
        let line = model::line(&case.bytes);
        let ends: &[&str] = match case.name.rsplit(' ').next() {
            _ if case.name.contains("unknown instruction") => &["stop 30", "stop 46"],
            Some("below" | "at") => &["value "],
            Some("above") => &["stop 45", "stop 46", "stop 47", "refused 1", "refused 5"],
            _ => continue,
        };
        let sharp = ends.iter().any(|end| line.starts_with(end));
        assert!(sharp, "{}: {line}", case.name);
    }
}
