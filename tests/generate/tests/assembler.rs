//! The assembler, the disassembler and the reader over everything that the generators give.

use generate::rng::Rng;
use generate::{FIXED, SEEDED, fixed, seeded};

fn all(count: u64) -> Vec<Vec<u8>> {
    let mut images = Vec::new();
    for generator in SEEDED {
        images.extend((0..count).filter_map(|n| seeded(generator, 11, n)));
    }
    for name in FIXED {
        let cases = fixed(name).unwrap_or_default();
        images.extend(cases.into_iter().map(|case| case.bytes));
    }
    images
}

/// The reader takes exactly what loads, and reads the same.
#[test]
fn reader_agrees_with_load() {
    for bytes in all(2_000) {
        let shown = String::from_utf8_lossy(&bytes);
        match (asm::read(&bytes), model::load(&bytes)) {
            (Ok(read), Ok(loaded)) => assert_eq!(read, loaded, "{shown}"),
            (Err(_), Err(_)) => {}
            (read, loaded) => panic!("{read:?} and {loaded:?} of\n{shown}"),
        }
    }
}

/// Every image that loads comes back from its assembly text, byte for byte.
#[test]
fn round_trip() {
    let mut times = 0;
    for bytes in all(1_500) {
        let Ok(image) = asm::read(&bytes) else {
            continue;
        };
        let text = asm::disassemble(&image);
        match asm::assemble(&text) {
            Ok(again) => assert_eq!(again.lines().as_bytes(), bytes, "{text}"),
            Err(error) => panic!("{error} in\n{text}"),
        }
        times += 1;
    }
    assert!(times > 7_000, "{times} images");
}

/// Whatever the text, the assembler answers, and what it gives loads.
#[test]
fn any_text_is_answered() {
    let mut rng = Rng::new(12);
    for number in 0..3_000 {
        let bytes = seeded("passing", 13, number % 300).expect("a known generator");
        let image = asm::read(&bytes).expect("it loads");
        let mut text = asm::disassemble(&image).into_bytes();
        for _ in 0..rng.between(1, 4) {
            let at = rng.below(text.len());
            match rng.below(4) {
                0 => text[at] = rng.between(0x20, 0x7E) as u8,
                1 => text[at] = *rng.pick(b"\n \"'@:=/#0-9"),
                2 => {
                    text.remove(at);
                }
                _ => text.insert(at, *rng.pick(b"\n \"'@:=/#0-9")),
            }
        }
        let text = String::from_utf8_lossy(&text).into_owned();
        if let Ok(image) = asm::assemble(&text) {
            let lines = image.lines();
            assert!(model::load(lines.as_bytes()).is_ok(), "{text}");
        }
    }
}

/// The example that the assembler's README shows: it assembles, passes, and gives what it says.
#[test]
fn readme_example() {
    let readme = include_str!("../../../tools/asm/README.md");
    let example = readme.split("```").nth(1).expect("an example");
    let image = asm::assemble(example).expect("it assembles");
    assert_eq!(model::stack_check(&image), model::Checked::Pass);
    let line = model::line(image.lines().as_bytes());
    // A tuple of Float 4.0 and an Ok of Float 0.45.
    assert_eq!(
        line,
        "value 19 11000205401000000000000016053FDCCCCCCCCCCCCD"
    );
}
