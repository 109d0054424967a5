//! The list that the program `run_replay` replays on the proved machine: stored runs that are short, each
//! with its budget and its room, and some of them again with less of either.
//!
//! A case is the image, byte for byte, and then one line `= BUDGET ROOM ANSWER`, where the answer is the
//! runner's line. With the runner's budget and room the answers are those of the lists they come from;
//! with less, they are the model's.

use crate::text::Entry;
use model::{Answer, BUDGET, ROOM};
use std::path::PathBuf;

/// How many bytes an image may have, and one that comes again with less.
const BYTES: usize = 450;
const FEW_BYTES: usize = 200;
/// One in so many comes again.
const AGAIN: usize = 4;

/// The program's input.
pub fn file() -> PathBuf {
    PathBuf::from(env!("CARGO_MANIFEST_DIR")).join("../../crates/run_replay/stdin")
}

/// The list, from stored runs.
pub fn text(entries: &[Entry]) -> String {
    let mut text = String::new();
    let short = entries.iter().filter(|e| e.image.len() <= BYTES);
    for (number, entry) in short.enumerate() {
        let image = String::from_utf8_lossy(&entry.image);
        let mut add = |budget: u64, room: usize, answer: &str| {
            text.push_str(&format!("{image}= {budget} {room} {answer}\n"));
        };
        add(BUDGET, ROOM, &entry.answer);
        if number % AGAIN == 0 && entry.image.len() <= FEW_BYTES {
            let image = model::load(&entry.image).expect("a stored run loads");
            for (budget, room) in less(&model::run(&image, BUDGET, ROOM)) {
                add(budget, room, &model::run(&image, budget, room).to_string());
            }
        }
    }
    text
}

/// The last budget that suffices and the first that doesn't; the same of rooms.
fn less(answer: &Answer) -> Vec<(u64, usize)> {
    match answer {
        Answer::Value { count, bytes } => {
            let length = bytes.len();
            vec![
                (*count, length),
                (count.saturating_sub(1), ROOM),
                (BUDGET, length - 1),
            ]
        }
        Answer::Stop { count, .. } => vec![(*count, 0), (count.saturating_sub(1), ROOM)],
    }
}

/// The cases of the list: budget, room and entry.
pub fn cases(text: &str) -> Vec<(u64, usize, Entry)> {
    let listed = crate::text::entries(text).into_iter();
    listed
        .map(|entry| {
            let mut words = entry.answer.splitn(3, ' ');
            let mut word = || words.next().unwrap_or_default().to_string();
            let (budget, room, answer) = (word(), word(), word());
            let number = |word: &str| word.parse().expect("a number");
            let image = entry.image;
            (
                number(&budget),
                number(&room) as usize,
                Entry { image, answer },
            )
        })
        .collect()
}
