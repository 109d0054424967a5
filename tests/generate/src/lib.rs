//! Generators of test images, each with a seed, the same on every machine.
//!
//! - `passing`: programs that pass the stack check and do real work;
//! - `mutated`: such programs with a few code bytes changed;
//! - `instructions`, `bytes`: bytecode that nobody checked;
//! - `damaged`: image lines with something wrong;
//! - `limits`: images at, one below and one above each most (a fixed list);
//! - `targeted`: every rule by itself (a fixed list);
//! - `refusals`: every refusal of load, and every tie between two (a fixed list);
//! - `checks`: every rule of the stack check (a fixed list).

pub mod checks;
pub mod code;
pub mod damaged;
pub mod limits;
pub mod mutated;
pub mod numbers;
pub mod passing;
pub mod refusals;
pub mod rng;
pub mod statistics;
pub mod targeted;
pub mod unchecked;

use image::Image;
use rng::Rng;

/// One test image, as its lines, with what it is for.
#[derive(Debug, Clone, PartialEq, Eq)]
pub struct Case {
    pub name: String,
    pub bytes: Vec<u8>,
}

impl Case {
    pub fn of(name: &str, image: &Image) -> Case {
        Case {
            name: name.to_string(),
            bytes: image.lines().into_bytes(),
        }
    }
}

/// The generators with a seed.
pub const SEEDED: [&str; 5] = ["passing", "mutated", "instructions", "bytes", "damaged"];

/// The fixed lists.
pub const FIXED: [&str; 4] = ["limits", "targeted", "refusals", "checks"];

/// Case `number` of a generator with a seed: its image lines. None for an unknown generator.
pub fn seeded(generator: &str, seed: u64, number: u64) -> Option<Vec<u8>> {
    let rng = Rng::case(generator, seed, number);
    let image = match generator {
        "passing" => passing::passing(rng),
        "mutated" => mutated::mutated(rng),
        "instructions" => unchecked::instructions(rng),
        "bytes" => unchecked::bytes(rng),
        "damaged" => return Some(damaged::damaged(rng)),
        _ => return None,
    };
    Some(image.lines().into_bytes())
}

/// A fixed list by name. None for an unknown one.
pub fn fixed(list: &str) -> Option<Vec<Case>> {
    match list {
        "limits" => Some(limits::limits()),
        "targeted" => Some(targeted::targeted()),
        "refusals" => Some(refusals::refusals()),
        "checks" => Some(checks::checks()),
        _ => None,
    }
}

/// A number that changes if any of the bytes do (FNV-1a), to hold a generator to what it gave.
pub fn digest<'a>(parts: impl IntoIterator<Item = &'a [u8]>) -> u64 {
    let mut hash = 0xCBF2_9CE4_8422_2325u64;
    for part in parts {
        let length = (part.len() as u64).to_be_bytes();
        for byte in length.iter().chain(part) {
            hash = (hash ^ *byte as u64).wrapping_mul(0x0000_0100_0000_01B3);
        }
    }
    hash
}
