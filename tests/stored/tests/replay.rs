//! The stored lists and sheets, replayed through the model.

use generate::statistics::Statistics;
use std::collections::BTreeSet;
use stored::{
    CASES, CHECKS, DAMAGED, Entry, OUTSIDE, by_model, entries, path, replay, sheets, written,
};

fn text(list: &str) -> String {
    std::fs::read_to_string(path(list)).unwrap_or_else(|error| panic!("{list}: {error}"))
}

fn replayed(list: &str) -> Vec<Entry> {
    let entries = entries(&text(list));
    for Entry { image, answer } in &entries {
        let shown = String::from_utf8_lossy(image);
        assert_eq!(model::line(image), *answer, "{shown}");
    }
    entries
}

/// The published machine's answers are the model's, and no instruction or stop is left out.
#[test]
fn cases() {
    let entries = replayed(CASES);
    assert!(entries.len() >= 2_000, "{} cases", entries.len());
    let mut statistics = Statistics::default();
    entries
        .iter()
        .for_each(|entry| statistics.add(&entry.image));
    assert_eq!(statistics.missing(), Vec::<String>::new());
    assert_eq!(statistics.outside, 0);
    assert!(statistics.refused.is_empty());
}

/// The lists whose answers are the model's own are made again, and have each ending a few times.
#[test]
fn made_again() {
    for (list, images, answer) in by_model() {
        let answered = |image: Vec<u8>| Entry {
            answer: answer(&image),
            image,
        };
        let again: Vec<Entry> = images.into_iter().map(answered).collect();
        assert_eq!(written(&again), text(list), "{list}");
        assert_eq!(entries(&text(list)), again, "{list}");
        for ending in endings(list) {
            let times = again.iter().filter(|e| e.answer.starts_with(ending));
            assert!(times.count() >= 2, "{list}: {ending}");
        }
    }
}

/// The endings that a list of the model's has to have.
fn endings(list: &str) -> &'static [&'static str] {
    match list {
        DAMAGED => &[
            "refused 2 ",
            "refused 3 ",
            "refused 4 ",
            "refused 5 ",
            "refused 6 ",
            "refused 7 ",
        ],
        CHECKS => &["pass", "fault 10 ", "fault 11 ", "fault 12 ", "fault 13 "],
        _ => &[
            "stop 30 ", "stop 31 ", "stop 32 ", "stop 33 ", "stop 34 ", "stop 37 ", "stop 42 ",
            "stop 45 ", "stop 46 ", "stop 47 ", "value ",
        ],
    }
}

/// The program's list has every ending that a run can have, and its answers are the model's.
#[test]
fn program_list() {
    let list = std::fs::read_to_string(replay::file()).expect("the list is there");
    assert!(list.len() < 1 << 19, "the program has room for it");
    let mut endings = std::collections::BTreeSet::new();
    for (budget, room, Entry { image, answer }) in replay::cases(&list) {
        let image = model::load(&image).expect("a stored run loads");
        assert_eq!(model::run(&image, budget, room).to_string(), answer);
        endings.insert(answer.split(' ').take(2).collect::<Vec<_>>().join(" "));
    }
    for number in 30..=47 {
        assert!(endings.contains(&format!("stop {number}")), "{number}");
    }
}

#[test]
fn enough_refusals() {
    assert!(entries(&text(DAMAGED)).len() >= 400);
}

/// The image that is too long: refused whatever it holds, and judged before anything else.
#[test]
fn too_long() {
    let long = generate::limits::long_image(65_537).lines().into_bytes();
    let tied: [Vec<u8>; 4] = [
        long,
        vec![b'0'; 65_537],
        vec![b'\n'; 65_537],
        b"0161\n02000000\n05\n".repeat(5_000),
    ];
    for image in tied {
        assert_eq!(model::line(&image), "refused 1 0");
    }
    let most = generate::limits::long_image(65_536).lines().into_bytes();
    assert_eq!(most.len(), 65_536);
    assert_eq!(model::line(&most), "value 2 00");
    assert_eq!(model::line(&[b'\n'; 65_536]), "refused 2 1");
}

/// The kinds and targets of the casts that a list's runs with a value do in chunk 0.
fn cast_pairs(list: &str) -> BTreeSet<(u8, u8)> {
    let mut pairs = BTreeSet::new();
    for Entry { image, answer } in entries(&text(list)) {
        let image = model::load(&image).expect("it loads");
        let top = &image.chunks[0];
        for window in top.code.windows(6) {
            // Const with a small number, then Cast with its target.
            if let [0, 0, constant, 36, 0, target] = *window
                && let Some(constant) = top.constants.get(constant as usize)
                && answer.starts_with("value")
            {
                pairs.insert((constant.kind(), target));
            }
        }
    }
    pairs
}

/// Every pair of kinds that Cast has stands in a list, with a value: a UInt in the model's alone.
#[test]
fn every_cast_pair() {
    let (published, model) = (cast_pairs(CASES), cast_pairs(OUTSIDE));
    for kind in [1, 2, 3, 4, 5, 6, 10, 11, 12, 13] {
        for target in 0..10 {
            let pair = (kind, target);
            let list = if kind == 2 { &model } else { &published };
            assert!(list.contains(&pair), "{kind} to {target}");
        }
    }
}

/// What is written is read again.
#[test]
fn text_and_entries() {
    let images: [&[u8]; 5] = [b"", b"\n", b"05", b"0161\n05\n", b"\n\n0"];
    let list: Vec<Entry> = images
        .iter()
        .map(|image| Entry {
            image: image.to_vec(),
            answer: model::line(image),
        })
        .collect();
    assert_eq!(entries(&written(&list)), list);
}

/// Each sheet's image is what its text assembles to, and gives the stored line.
#[test]
fn sheets_hold() {
    let names = sheets::names().expect("the folder is there");
    assert!(names.len() >= 3);
    for name in names {
        let image = sheets::image(&name).expect("it assembles and passes");
        let stored = |end: &str| {
            let path = sheets::folder().join(format!("{name}.{end}"));
            std::fs::read_to_string(path).unwrap_or_else(|error| panic!("{name}.{end}: {error}"))
        };
        assert_eq!(stored("img"), image, "{name}");
        assert_eq!(
            stored("out"),
            model::line(image.as_bytes()) + "\n",
            "{name}"
        );
    }
}
