//! The linked machine on every list that is fixed, with every way that an operation can end: its answers
//! are the model's, all memory that it was lent is zero afterwards, whatever stood there before, only a
//! value writes the result, and every value is decoded.

use generate::{FIXED, fixed};
use machine::{Machine, RunAnswer, check_line, run_line};
use model::{BUDGET, Checked, ROOM};
use std::collections::BTreeSet;

/// What the result slice holds before a run.
const UNWRITTEN: u8 = 0xEE;

/// One run, with its memory and its result held to the rules; the runner's line.
fn run(machine: &mut Machine, image: &[u8], budget: u64, room: usize) -> String {
    let mut result = vec![UNWRITTEN; room];
    let answer = machine.run(image, budget as usize, &mut result);
    assert!(machine.is_clean_after_run(), "{answer:?} left memory");
    let written = match answer {
        RunAnswer::Value { length, .. } => {
            let decoded = rl_vm::decode(&result[..length]);
            assert!(decoded.is_ok(), "{decoded:?}");
            length
        }
        _ => 0,
    };
    let rest = &result[written..];
    assert!(rest.iter().all(|b| *b == UNWRITTEN), "{answer:?} wrote");
    run_line(&answer, &result)
}

fn check(machine: &mut Machine, image: &[u8]) -> String {
    let answer = machine.check(image);
    assert!(machine.is_clean_after_check(), "{answer:?} left memory");
    check_line(&answer)
}

fn model_run(image: &[u8], budget: u64, room: usize) -> String {
    match model::load(image) {
        Err(refusal) => refusal.to_string(),
        Ok(image) => model::run(&image, budget, room).to_string(),
    }
}

fn model_check(image: &[u8]) -> String {
    match model::load(image).map(|image| model::stack_check(&image)) {
        Err(refusal) => refusal.to_string(),
        Ok(Checked::Pass) => "pass".to_string(),
        Ok(Checked::Fault {
            number,
            chunk,
            offset,
        }) => format!("fault {number} {chunk:04} {offset:04}"),
    }
}

fn images() -> Vec<Vec<u8>> {
    let lists = FIXED.iter().flat_map(|list| fixed(list).expect("a list"));
    lists.map(|case| case.bytes).collect()
}

/// How an answer ends: `value`, `pass`, or the word with its number.
fn ending(line: &str) -> String {
    let words: Vec<&str> = line.split(' ').collect();
    match words[..] {
        ["value", ..] | ["pass"] => words[0].to_string(),
        _ => words[..2].join(" "),
    }
}

#[test]
fn every_ending() {
    let mut machine = Machine::new();
    let mut endings = BTreeSet::new();
    for image in images() {
        for (budget, room) in [(BUDGET, ROOM), (3, ROOM), (BUDGET, 3), (0, 0)] {
            let line = run(&mut machine, &image, budget, room);
            assert_eq!(line, model_run(&image, budget, room));
            endings.insert(ending(&line));
        }
        let line = check(&mut machine, &image);
        assert_eq!(line, model_check(&image));
        endings.insert(ending(&line));
    }
    let refusals = (1..=7).map(|n| format!("refused {n}"));
    let faults = (10..=13).map(|n| format!("fault {n}"));
    let stops = (30..=47).map(|n| format!("stop {n}"));
    let plain = ["value", "pass"].map(str::to_string);
    let every: BTreeSet<String> = (refusals.chain(faults).chain(stops).chain(plain)).collect();
    assert_eq!(endings, every);
}

/// What stood in the memory before shows neither in an answer nor afterwards.
#[test]
fn memory_that_was_used() {
    let mut machine = Machine::new();
    for (number, image) in images().iter().enumerate() {
        machine.dirty([0x01, 0xA5, 0xFF][number % 3]);
        let budget = [BUDGET, 40][number % 2];
        assert_eq!(
            run(&mut machine, image, budget, ROOM),
            model_run(image, budget, ROOM)
        );
        assert_eq!(check(&mut machine, image), model_check(image));
    }
}

/// Each slice one element too short: 9, whatever the image is, and the memory is zero all the same.
#[test]
fn short_slices() {
    let least = |all: &[(&str, usize)]| all.iter().map(|(_, n)| *n).collect::<Vec<usize>>();
    let (for_run, for_check) = (least(Machine::RUN_LEAST), least(Machine::CHECK_LEAST));
    let images: [&[u8]; 4] = [
        b"",
        b"01\n02000000\n05\n",
        b"01\n02000000\n0400",
        &[b'0'; 65_537],
    ];
    for image in images {
        for short in 0..for_run.len() {
            let mut lengths = for_run.clone();
            lengths[short] -= 1;
            let mut machine = Machine::with_lengths(&lengths, &for_check);
            machine.dirty(0x5A);
            let line = run(&mut machine, image, 100, 100);
            assert_eq!(line, "refused 9 0", "{}", Machine::RUN_LEAST[short].0);
        }
        for short in 0..for_check.len() {
            let mut lengths = for_check.clone();
            lengths[short] -= 1;
            let mut machine = Machine::with_lengths(&for_run, &lengths);
            machine.dirty(0x5A);
            let line = check(&mut machine, image);
            assert_eq!(line, "refused 9 0", "{}", Machine::CHECK_LEAST[short].0);
        }
    }
}

/// Longer slices change nothing.
#[test]
fn long_slices() {
    let more = |all: &[(&str, usize)]| all.iter().map(|(_, n)| n + 77).collect::<Vec<usize>>();
    let (for_run, for_check) = (more(Machine::RUN_LEAST), more(Machine::CHECK_LEAST));
    let mut machine = Machine::with_lengths(&for_run, &for_check);
    for image in images().iter().step_by(7) {
        machine.dirty(0xC3);
        assert_eq!(
            run(&mut machine, image, BUDGET, ROOM),
            model_run(image, BUDGET, ROOM)
        );
        assert_eq!(check(&mut machine, image), model_check(image));
    }
}
