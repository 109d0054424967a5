//! Images with something wrong in their lines.

use crate::passing;
use crate::rng::Rng;
use crate::unchecked;
use image::line;

/// A good image with one to three edits. Some come out good all the same.
pub fn damaged(rng: Rng) -> Vec<u8> {
    let mut rng = rng;
    let source = Rng::new(rng.draw());
    let image = match rng.below(4) {
        0 => passing::styled(source, SMALL),
        1 => unchecked::bytes(source),
        2 => unchecked::instructions(source),
        _ => return edited(&mut rng, smallest()),
    };
    edited(&mut rng, image.lines().into_bytes())
}

const SMALL: passing::Style = passing::Style {
    wild: 10,
    fault: 0,
    size: 3,
    cost: 60,
    chunks: 3,
    uint_casts: true,
};

/// A small image with every kind of line and constant.
fn smallest() -> Vec<u8> {
    let mut lines = line(1, b"top") + &line(1, b"") + &line(2, &[0, 0, 0]);
    let payloads: [&[u8]; 8] = [
        &[0],
        &[1, 0, 0, 0, 0, 0, 0, 0, 2],
        &[3, 0, 0, 0, 1],
        &[7, 1],
        &[8, 0, 1],
        &[9, 0, 0, 0, 0x41],
        &[12, 0, 7],
        &[20, 0, 1],
    ];
    for payload in payloads {
        lines += &line(3, payload);
    }
    lines += &line(4, &[0, 0, 1].repeat(22)[..64]);
    lines += &line(4, &[19]);
    lines += &line(2, &[1, 0, 1]);
    lines += &line(4, &[13, 0, 0, 19]);
    lines += &line(5, &[]);
    lines.into_bytes()
}

fn edited(rng: &mut Rng, image: Vec<u8>) -> Vec<u8> {
    let mut image = image;
    for _ in 0..rng.between(1, 3) {
        if rng.one_in(3) {
            edit_bytes(rng, &mut image);
        } else {
            let mut lines = split(&image);
            edit_lines(rng, &mut lines);
            image = lines.concat();
        }
    }
    image
}

/// The lines, each with its line feed if it has one.
fn split(image: &[u8]) -> Vec<Vec<u8>> {
    image
        .split_inclusive(|&b| b == b'\n')
        .map(<[u8]>::to_vec)
        .collect()
}

fn edit_bytes(rng: &mut Rng, image: &mut Vec<u8>) {
    let at = rng.below(image.len());
    if image.is_empty() {
        return image.push(rng.draw() as u8);
    }
    match rng.below(8) {
        0 => image[at] = rng.draw() as u8,
        1..=2 => image[at] = *rng.pick(b"0123456789ABCDEF"),
        3 => image[at] = image[at].to_ascii_lowercase(),
        4 => {
            image.remove(at);
        }
        5 => image.insert(at, *rng.pick(b"0159AFg \n\r")),
        6 => image.truncate(at),
        _ => {
            let ends: [&[u8]; 4] = [b"\n", b"05\n", b"00", b"0500\n"];
            let end = *rng.pick(&ends);
            image.extend_from_slice(end);
        }
    }
}

fn edit_lines(rng: &mut Rng, lines: &mut Vec<Vec<u8>>) {
    if lines.is_empty() {
        return;
    }
    let at = rng.below(lines.len());
    let other = rng.below(lines.len());
    match rng.below(14) {
        0 => {
            lines.remove(at);
        }
        1 => lines.insert(at, lines[other].clone()),
        2 => lines.swap(at, other),
        3 => lines.insert(at, b"\n".to_vec()),
        4 => lines[at].make_ascii_lowercase(),
        5 => lines.truncate(at),
        6 => lengthen(&mut lines[at], b"00"),
        7 => lengthen(&mut lines[at], b"0"),
        8 => shorten(&mut lines[at], 2),
        9 => shorten(&mut lines[at], 1),
        10 => replace(&mut lines[at], 0, rng.pick(&FIRST)),
        11 => {
            let digits = lines[at].len();
            replace(&mut lines[at], rng.below(digits) / 2 * 2, rng.pick(&PAIRS));
        }
        12 => lines.push(lines[at].clone()),
        _ => lines[at].insert(0, *rng.pick(b"0 \n1")),
    }
}

const FIRST: [[u8; 2]; 9] = [
    *b"00", *b"01", *b"02", *b"03", *b"04", *b"05", *b"06", *b"15", *b"FF",
];

const PAIRS: [[u8; 2]; 12] = [
    *b"00", *b"01", *b"02", *b"03", *b"07", *b"08", *b"0E", *b"14", *b"1F", *b"7F", *b"D8", *b"FF",
];

fn lengthen(line: &mut Vec<u8>, digits: &[u8]) {
    let end = line.len().saturating_sub(1);
    line.splice(end..end, digits.iter().copied());
}

fn shorten(line: &mut Vec<u8>, digits: usize) {
    let end = line.len().saturating_sub(1);
    line.drain(end.saturating_sub(digits)..end);
}

fn replace(line: &mut [u8], at: usize, digits: &[u8; 2]) {
    if let Some(place) = line.get_mut(at..at + 2)
        && !place.contains(&b'\n')
    {
        place.copy_from_slice(digits);
    }
}
