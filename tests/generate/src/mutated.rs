//! Programs that pass the stack check, with a few places of their code changed: they still load, get
//! some way, and go wrong where nobody would write it.

use crate::passing::{self, Style};
use crate::rng::Rng;
use image::{INSTRUCTIONS, Image};

pub fn mutated(rng: Rng) -> Image {
    let mut rng = rng;
    let style = Style {
        wild: 5,
        fault: 0,
        size: rng.between(2, 6),
        cost: 200,
        chunks: 5,
        uint_casts: rng.aside_one_in(8),
    };
    let mut image = passing::styled(Rng::new(rng.draw()), style);
    for _ in 0..rng.between(1, 3) {
        let number = rng.below(image.chunks.len());
        let code = &mut image.chunks[number].code;
        match rng.one_in(8) {
            true => edit_byte(&mut rng, code),
            false => edit_instruction(&mut rng, code),
        }
    }
    image
}

fn edit_byte(rng: &mut Rng, code: &mut Vec<u8>) {
    if code.is_empty() {
        return;
    }
    let at = rng.below(code.len());
    match rng.below(4) {
        0 => code[at] = rng.draw() as u8,
        1 => code[at] = rng.below(INSTRUCTIONS.len()) as u8,
        2 => {
            code.remove(at);
        }
        _ => code.insert(at, rng.below(INSTRUCTIONS.len()) as u8),
    }
}

/// How many bytes an instruction has, by its first byte.
fn length(byte: u8) -> usize {
    1 + 2 * INSTRUCTIONS.get(byte as usize).map_or(0, |(_, n)| *n)
}

fn edit_instruction(rng: &mut Rng, code: &mut Vec<u8>) {
    let mut places = Vec::new();
    let mut at = 0;
    while at < code.len() && at + length(code[at]) <= code.len() {
        places.push(at);
        at += length(code[at]);
    }
    if places.is_empty() {
        return;
    }
    let at = *rng.pick(&places);
    let end = at + length(code[at]);
    match rng.below(10) {
        // Another instruction of the same length.
        0..=3 => {
            let same = (0..INSTRUCTIONS.len() as u8).filter(|&b| length(b) == end - at);
            code[at] = *rng.pick(&same.collect::<Vec<u8>>());
        }
        // An operand a little different.
        4..=6 if end > at + 1 => {
            let low = at + 2 * rng.between(1, (end - at) / 2);
            code[low] = match rng.one_in(2) {
                true => code[low].wrapping_add(1),
                false => code[low].wrapping_sub(1),
            };
        }
        7 => {
            code.drain(at..end);
        }
        _ => {
            let again = code[at..end].to_vec();
            let to = *rng.pick(&places);
            code.splice(to..to, again);
        }
    }
}
