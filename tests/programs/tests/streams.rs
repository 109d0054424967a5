//! The built `runner` and `checker`: inputs of every length that matters, and streams that fail.

use generate::limits::long_image;
use generate::rng::Rng;
use model::{Checked, stack_check};
use programs::{Input, Output, Said, run};
use stored::sheets;

const NAMES: [&str; 2] = ["runner", "checker"];

/// The line that the model of document 01 has for a program and its input.
fn modelled(name: &str, bytes: &[u8]) -> String {
    if name == "runner" {
        return model::line(bytes);
    }
    match model::load(bytes).map(|image| stack_check(&image)) {
        Err(refusal) => refusal.to_string(),
        Ok(Checked::Pass) => "pass".to_string(),
        Ok(Checked::Fault {
            number,
            chunk,
            offset,
        }) => format!("fault {number} {chunk:04} {offset:04}"),
    }
}

fn said(line: &str) -> Said {
    let output = format!("{line}\n");
    let error = String::new();
    Said { output, error }
}

fn failed(name: &str, why: &str) -> Said {
    let output = String::new();
    let error = format!("{name}: {why}\n");
    Said { output, error }
}

/// Both programs say this line for these bytes.
fn both_say(bytes: &[u8], line: &str) {
    for name in NAMES {
        assert_eq!(modelled(name, bytes), line, "the model's {name}");
        assert_eq!(run(name, Input::Bytes(bytes), Output::Read), said(line));
    }
}

/// Both programs say the model's line, and it is not a refusal for the image's length.
fn both_agree(bytes: &[u8]) {
    for name in NAMES {
        let line = modelled(name, bytes);
        assert!(!line.starts_with("refused 1 "), "{line}");
        assert_eq!(run(name, Input::Bytes(bytes), Output::Read), said(&line));
    }
}

fn image_of(length: usize) -> Vec<u8> {
    let bytes = long_image(length).lines().into_bytes();
    assert_eq!(bytes.len(), length);
    bytes
}

fn noise(length: usize) -> Vec<u8> {
    let mut rng = Rng::new(16);
    (0..length).map(|_| rng.draw() as u8).collect()
}

/// The image of each sheet, with the runner's line that is stored beside it.
fn stored_sheets() -> Vec<(Vec<u8>, String)> {
    let names = sheets::names().expect("the sheets");
    assert!(!names.is_empty());
    let read = |name: &str, end: &str| {
        std::fs::read(sheets::folder().join(format!("{name}.{end}"))).expect("a file")
    };
    let line = |name: &str| String::from_utf8(read(name, "out")).expect("text");
    let both = |name: &String| (read(name, "img"), line(name).trim_end().to_string());
    names.iter().map(both).collect()
}

#[test]
fn sheets_have_their_lines() {
    for (image, line) in stored_sheets() {
        let answer = |name: &str| run(name, Input::Bytes(&image), Output::Read);
        assert_eq!(answer("runner"), said(&line));
        assert_eq!(answer("checker"), said("pass"));
    }
}

/// A Closure of the last chunk, with the greatest capture start: the greatest numbers of a value that a run ends in.
#[test]
fn a_run_ends_in_the_greatest_closure() {
    let chunk = "02000000\n";
    let code = "0314003F\n04230000FFFF13\n"; // BuildClosure of chunk 63 from slot 65,535 on, Return
    let image = format!("0163\n{chunk}{code}{}05\n", chunk.repeat(63));
    let line = "value 2 19003FFFFF0000";
    assert_eq!(modelled("runner", image.as_bytes()), line);
    assert_eq!(
        run("runner", Input::Bytes(image.as_bytes()), Output::Read),
        said(line)
    );
}

#[test]
fn an_empty_input_has_no_end() {
    both_say(b"", "refused 6 0");
}

#[test]
fn the_longest_image_is_answered() {
    let image = image_of(65_536);
    assert_eq!(modelled("runner", &image), "value 2 00");
    assert_eq!(modelled("checker", &image), "pass");
    both_agree(&image);
}

/// A fault on the last lines has its line: every byte before it was read.
#[test]
fn the_longest_image_is_read_to_its_end() {
    let image = image_of(65_536);
    let lines = image.iter().filter(|b| **b == b'\n').count();
    for (from_end, byte) in [(1, b'0'), (2, b'4'), (4, b'x'), (5, b'\n')] {
        let mut damaged = image.clone();
        let at = damaged.len() - from_end;
        assert_ne!(damaged[at], byte);
        damaged[at] = byte;
        let line = modelled("runner", &damaged);
        let number = line.split(' ').nth(2).and_then(|n| n.parse().ok());
        assert!(number.is_some_and(|n: usize| n + 1 >= lines), "{line}");
        both_agree(&damaged);
    }
}

#[test]
fn noise_is_refused_where_it_begins() {
    for length in [1, 600, 65_535, 65_536] {
        both_agree(&noise(length));
    }
    let mut image = image_of(65_536);
    let at = image.len() / 2;
    image.splice(at.., noise(65_536 - at));
    assert!(!modelled("runner", &image).ends_with(" 1"));
    both_agree(&image);
}

#[test]
fn one_byte_more_is_too_long() {
    both_say(&image_of(65_537), "refused 1 0");
    both_say(&noise(65_537), "refused 1 0");
    let mut image = image_of(65_536);
    image.push(b'\n');
    both_say(&image, "refused 1 0");
}

#[test]
fn a_megabyte_is_too_long() {
    both_say(&noise(1 << 20), "refused 1 0");
    both_say(&image_of(65_536).repeat(16), "refused 1 0");
}

/// A read that gives a part of the image is not its end.
#[test]
fn a_slow_pipe_gives_the_same_answer() {
    for (image, line) in stored_sheets() {
        let slowly = |name: &str| run(name, Input::Pieces(&image, 37), Output::Read);
        assert_eq!(slowly("runner"), said(&line));
        assert_eq!(slowly("checker"), said("pass"));
    }
    let (long, longer) = (image_of(65_536), image_of(65_537));
    for name in NAMES {
        let slowly = |bytes: &[u8]| run(name, Input::Pieces(bytes, 4_099), Output::Read);
        assert_eq!(slowly(&long), said(&modelled(name, &long)));
        assert_eq!(slowly(&longer), said("refused 1 0"));
        assert_eq!(slowly(b""), said("refused 6 0"));
    }
}

#[test]
fn an_input_that_cannot_be_read_is_no_image() {
    for name in NAMES {
        let expected = failed(name, "standard input cannot be read");
        assert_eq!(run(name, Input::Closed, Output::Read), expected);
        assert_eq!(run(name, Input::Folder, Output::Read), expected);
    }
}

#[test]
fn a_line_that_could_not_be_written_is_said() {
    let image = image_of(65_536);
    for name in NAMES {
        let expected = failed(name, "the line could not be written");
        for bytes in [&b""[..], &image] {
            assert_eq!(run(name, Input::Bytes(bytes), Output::Closed), expected);
            assert_eq!(run(name, Input::Bytes(bytes), Output::Full), expected);
        }
    }
}
