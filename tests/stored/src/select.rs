//! Which images are stored.

use crate::text::storable;
use generate::{Case, fixed, seeded};
use model::{Answer, BUDGET, Judged, ROOM};
use std::collections::{BTreeMap, BTreeSet};

/// The seed of every list. Another one gives other images of the same sort.
const SEED: u64 = 1;

/// How many of a generator's cases are looked at, how many bytes one may have, and how many are
/// taken at most: in all, and of those that end alike.
struct Share {
    generator: &'static str,
    looked_at: u64,
    bytes: usize,
    most: usize,
    alike: usize,
}

const SHARES: [Share; 4] = [
    Share {
        generator: "passing",
        looked_at: 8_000,
        bytes: 1_200,
        most: 560,
        alike: 36,
    },
    Share {
        generator: "mutated",
        looked_at: 6_000,
        bytes: 800,
        most: 270,
        alike: 20,
    },
    Share {
        generator: "instructions",
        looked_at: 10_000,
        bytes: 450,
        most: 300,
        alike: 20,
    },
    Share {
        generator: "bytes",
        looked_at: 3_000,
        bytes: 250,
        most: 40,
        alike: 8,
    },
];

/// The images to run, all of them inside the domain by the model.
pub fn runs() -> Vec<Vec<u8>> {
    let mut images: Vec<Vec<u8>> = Vec::new();
    let mut add = |more: Vec<Vec<u8>>| images.extend(more);
    add(limits());
    add(targeted(inside, 4));
    for share in &SHARES {
        add(share.selection());
    }
    let mut seen = BTreeSet::new();
    images.retain(|image| seen.insert(image.clone()));
    images
}

fn list(name: &str) -> Vec<Case> {
    fixed(name).unwrap_or_else(|| panic!("there is no list {name}"))
}

/// The run of an image that loads.
fn judged(bytes: &[u8]) -> Option<Judged> {
    let image = model::load(bytes).ok()?;
    Some(model::judge(&image, BUDGET, ROOM))
}

/// A run inside the domain, none for any other image.
fn inside(bytes: &[u8]) -> Option<Judged> {
    judged(bytes).filter(|judged| judged.outside.is_none())
}

/// Those of the limits that lie inside the domain. Of the longest image one is enough.
fn limits() -> Vec<Vec<u8>> {
    let cases = list("limits").into_iter();
    let kept = cases.filter(|case| case.name != "image below" && inside(&case.bytes).is_some());
    kept.map(|case| case.bytes).collect()
}

/// Of those that are wanted all that give a value; of the stops with one name and number the first few.
fn targeted(wanted: fn(&[u8]) -> Option<Judged>, few: usize) -> Vec<Vec<u8>> {
    let mut images = Vec::new();
    let mut taken: BTreeMap<(String, u8), usize> = BTreeMap::new();
    for case in list("targeted") {
        let Some(judged) = wanted(&case.bytes) else {
            continue;
        };
        if let Answer::Stop { number, .. } = judged.answer {
            let times = taken.entry((case.name, number)).or_default();
            *times += 1;
            if *times > few {
                continue;
            }
        }
        images.push(case.bytes);
    }
    images
}

impl Share {
    /// Runs that differ in how they end or in what they meet, the first of each sort.
    fn selection(&self) -> Vec<Vec<u8>> {
        let mut images = Vec::new();
        let mut sorts = BTreeSet::new();
        let mut alike: BTreeMap<u8, usize> = BTreeMap::new();
        let seeded = (0..self.looked_at).filter_map(|n| seeded(self.generator, SEED, n));
        for bytes in seeded.filter(|bytes| bytes.len() <= self.bytes) {
            let Some(judged) = inside(&bytes) else {
                continue;
            };
            let sort = sort(&judged);
            let taken = alike.entry(sort.0).or_default();
            if *taken < self.alike && sorts.insert(sort) {
                *taken += 1;
                images.push(bytes);
            }
            if images.len() == self.most {
                break;
            }
        }
        images
    }
}

/// How a run ends and which instructions begin in it.
fn sort(judged: &Judged) -> (u8, u64) {
    let ending = match &judged.answer {
        Answer::Value { bytes, .. } => bytes.first().copied().unwrap_or(0),
        Answer::Stop { number, .. } => 100 + number,
    };
    (ending, judged.met)
}

/// Runs outside the domain, which only the documents and the model speak of: the mosts passed, the
/// budget used up, the room too small, what the published machine takes on trust, and what a request
/// has changed.
pub fn outside() -> Vec<Vec<u8>> {
    let limits = list("limits").into_iter().map(|case| case.bytes);
    let mut images: Vec<Vec<u8>> = limits.filter(|image| out(image).is_some()).collect();
    images.extend(targeted(out, 8));
    let mut sorts = BTreeSet::new();
    for generator in ["mutated", "instructions", "bytes"] {
        let seeded = (0..2_000).filter_map(|n| seeded(generator, SEED, n));
        let mut short = seeded.filter(|image| image.len() <= 500);
        let new = |image: &Vec<u8>| out(image).is_some_and(|run| sorts.insert(sort(&run)));
        let taken = short.by_ref().filter(new).take(70);
        images.extend(taken);
    }
    let mut seen = BTreeSet::new();
    images.retain(|image| seen.insert(image.clone()));
    images
}

/// A run outside the domain, none for any other image.
fn out(bytes: &[u8]) -> Option<Judged> {
    judged(bytes).filter(|judged| judged.outside.is_some())
}

/// Images for the stack check: the fixed list, and of each generator short ones: some that pass or
/// have no heights, and of the other faults one for each place.
pub fn checks() -> Vec<Vec<u8>> {
    let mut images: Vec<Vec<u8>> = list("checks").into_iter().map(|case| case.bytes).collect();
    for generator in ["passing", "mutated", "instructions", "bytes"] {
        let mut taken: BTreeMap<String, usize> = BTreeMap::new();
        let mut places = BTreeSet::new();
        let seeded = (0..3_000).filter_map(|n| seeded(generator, SEED + 1, n));
        for image in seeded.filter(|image| image.len() <= 600) {
            let answer = crate::checked(&image);
            let number: String = answer.chars().take(8).collect();
            let one = matches!(number.as_str(), "fault 10" | "fault 11" | "fault 12");
            let times = taken.entry(number).or_default();
            if *times < 30 && (!one || places.insert(answer)) {
                *times += 1;
                images.push(image);
            }
        }
    }
    let mut seen = BTreeSet::new();
    images.retain(|image| seen.insert(image.clone()));
    images
}

/// The images that don't load: the fixed list, the limits that are too high, and a selection of
/// damaged lines. The image that is too long is left to a test.
pub fn damaged() -> Vec<Vec<u8>> {
    let fixed = list("refusals").into_iter().chain(list("limits"));
    let mut images: Vec<Vec<u8>> = fixed.map(|case| case.bytes).collect();
    images.retain(|image| image.len() < 10_000 && model::load(image).is_err());
    let mut taken: BTreeMap<(u8, usize), usize> = BTreeMap::new();
    for image in (0..6_000).filter_map(|n| seeded("damaged", SEED, n)) {
        let Err(refusal) = model::load(&image) else {
            continue;
        };
        let times = taken.entry((refusal.number, refusal.line)).or_default();
        let most = if refusal.line == 0 { 30 } else { 8 };
        if image.len() <= 300 && *times < most {
            *times += 1;
            images.push(image);
        }
    }
    let mut seen = BTreeSet::new();
    images.retain(|image| storable(image) && seen.insert(image.clone()));
    images
}
