//! The stored answers for numbers are those of the published machine, but where a request of document 02 departs from it, and the
//! model has the same of all.

use image::{Chunk, Constant, INSTRUCTIONS, Image};
use model::Answer;
use oracle::numbers;

const STORED: &str = include_str!("../../../crates/number_vectors/stdin");

#[test]
fn made_again_it_is_the_stored_file() {
    assert!(numbers::text() == STORED, "run number_vectors and look");
    let lines = STORED.lines().count();
    assert!((5_000..=8_000).contains(&lines), "{lines} lines");
    assert!(STORED.lines().all(|line| line.len() == 56));
}

/// The constant line of an operand, taken apart by the model's own load.
fn constant(kind: &str, word: &str) -> Constant {
    let width = match kind {
        "01" | "02" | "05" => 16,
        "03" | "04" | "06" => 8,
        "0C" | "0D" => 4,
        _ => 2,
    };
    let image = format!("01\n02000000\n03{kind}{}\n05\n", &word[16 - width..]);
    model::load(image.as_bytes()).expect("it loads").chunks[0].constants[0]
}

#[test]
fn the_model_has_the_same() {
    for line in STORED.lines() {
        let (name, _) = INSTRUCTIONS[usize::from_str_radix(&line[..2], 16).unwrap()];
        let mut chunk = Chunk::default();
        chunk.constants.push(constant(&line[2..4], &line[4..20]));
        chunk.emit("Const", &[0]);
        if !matches!(name, "Negate" | "Cast") {
            chunk.constants.push(constant(&line[20..22], &line[22..38]));
            chunk.emit("Const", &[1]);
        }
        let target = u16::from_str_radix(&line[34..38], 16).unwrap();
        let operands = if name == "Cast" { vec![target] } else { vec![] };
        chunk.emit(name, &operands);
        chunk.emit("Return", &[]);
        let image = Image {
            texts: vec![vec![]],
            chunks: vec![chunk],
        };
        let answer = match model::run(&image, model::BUDGET, model::ROOM) {
            Answer::Value { bytes, .. } => {
                let word = bytes[1..].iter().fold(0, |w, b| w << 8 | *b as u64);
                format!("{:02X}{word:016X}", bytes[0])
            }
            Answer::Stop { number, .. } => format!("{number:02X}{:016X}", 0),
        };
        assert_eq!(answer, line[38..], "{line}");
    }
}
