//! What lies outside the domain: images that do not load, runs that the published machine can't be
//! asked for, and what a request of document 02 has changed. With each, the documents' answer by the
//! model.

use image::Constant::{BSByte, Function, Int, Null, SByte, SInt, Str, UInt};
use image::{Chunk, Image, op};
use written::{Written, bytes};

fn outside(image: &[u8]) -> String {
    let line = oracle::answer(image);
    let rest = line
        .strip_prefix("outside ")
        .unwrap_or_else(|| panic!("{line}"));
    rest.split(':').next().expect("an answer").to_string()
}

#[test]
fn refusals() {
    let long_text = format!("01{}\n", "41".repeat(256));
    let longest = "\n".repeat(65_536);
    let too_long = "\n".repeat(65_537);
    for (image, expected) in [
        (too_long.as_str(), "refused 1 0"),
        (&longest, "refused 2 1"),
        ("", "refused 6 0"),
        ("\n", "refused 2 1"),
        ("01\n020\n", "refused 2 2"),
        ("01\n0200000a\n", "refused 2 2"),
        (&long_text, "refused 2 1"),
        ("01\n02000000\n05", "refused 2 3"),
        ("01\n06\n", "refused 3 2"),
        ("05\n", "refused 3 1"),
        ("01\n02000000\n0413\n0413\n05\n", "refused 3 4"),
        ("0119\n", "refused 4 1"),
        ("01\n02010000\n05\n", "refused 4 2"),
        ("01\n02000000\n0500\n", "refused 4 3"),
        ("01\n02000000\n03140000\n05\n", "refused 4 3"),
        ("01\n02000000\n", "refused 6 0"),
        ("01\n02000000\n05\n\n", "refused 6 0"),
        ("01\n02000000\n03140001\n05\n", "refused 7 0"),
    ] {
        assert_eq!(outside(image.as_bytes()), expected, "{image:?}");
    }
    let many = "01\n".repeat(257) + "02000000\n05\n";
    assert_eq!(outside(many.as_bytes()), "refused 5 257");
}

/// The image, the documents' answer, what the published machine does.
type Case = (&'static [Written], &'static str, &'static str);

const CASES: &[Case] = &[
    (
        &[(0, &[], "Byte 38")],
        "stop 30 1 0000 0000",
        "assertion: corrupt bytecode: opcode",
    ),
    (
        &[(0, &[], "Byte 0 0")],
        "stop 30 1 0000 0000",
        "assertion: operand read past end of code",
    ),
    (
        &[(0, &[Int(1)], "Const 0; Add")],
        "stop 31 2 0000 0003",
        "assertion: stack underflow",
    ),
    (&[(0, &[], "Call 0")], "stop 31 1 0000 0000", "panic"),
    (&[(0, &[], "Const 0")], "stop 32 1 0000 0000", "died"),
    (
        &[(0, &[], "BuildClosure 0 0")],
        "stop 32 1 0000 0000",
        "panic",
    ),
    (
        &[(0, &[Str(0)], "Const 0; IsKind 1 0 1 1")],
        "stop 32 2 0000 0003",
        "panic",
    ),
    (&[(0, &[], "Loop 4")], "stop 33 1 0000 0000", "value 1 00"),
    (&[(0, &[], "GetLocal 0")], "stop 34 1 0000 0000", "panic"),
    (
        &[(0, &[Null], "PushScope; Const 0; SetLocal 0")],
        "stop 34 3 0000 0004",
        "panic",
    ),
    (
        &[(0, &[], "PushScope; Loop 4")],
        "stop 45 513 0000 0000",
        "no end after 1000000",
    ),
    (
        &[(0, &[], "Loop 3")],
        "stop 46 1000000 0000 0000",
        "no end after 1000000",
    ),
    (
        &[
            (
                0,
                &[Function(1)],
                "Const 0; DefineLocal 0; GetGlobal 0; Call 0",
            ),
            (0, &[], "GetGlobal 0; Call 0"),
        ],
        "stop 45 130 0001 0003",
        "no end after 1000000",
    ),
    // E1. The last stops in both, and is left out all the same: a cast of a UInt has begun.
    (
        &[(0, &[UInt(1)], "Const 0; Cast 0; Return")],
        "value 3 010000000000000001",
        "stop 42 2 0000 0003",
    ),
    (
        &[(0, &[UInt(1 << 63 | 1 << 39 | 1)], "Const 0; Cast 3; Return")],
        "value 3 065F000000",
        "stop 42 2 0000 0003",
    ),
    (
        &[(0, &[UInt(256)], "Const 0; Cast 8; Return")],
        "stop 42 2 0000 0003",
        "stop 42 2 0000 0003",
    ),
    // E5
    (
        &[(0, &[Int(i64::MIN)], "Const 0; Negate; Return")],
        "stop 37 2 0000 0003",
        "value 3 018000000000000000",
    ),
    (
        &[(0, &[SInt(i32::MIN)], "Const 0; Negate; Return")],
        "stop 37 2 0000 0003",
        "value 3 0380000000",
    ),
    (
        &[(0, &[BSByte(i16::MIN)], "Const 0; Negate; Return")],
        "stop 37 2 0000 0003",
        "value 3 0D8000",
    ),
    (
        &[(0, &[SByte(i8::MIN)], "Const 0; Negate; Return")],
        "stop 37 2 0000 0003",
        "value 3 0B80",
    ),
];

#[test]
fn stops() {
    for (chunks, expected, _) in CASES {
        assert_eq!(outside(&bytes(chunks)), *expected);
    }
}

/// One of these ends the process that runs the published machine; those after it are answered all the
/// same.
#[test]
fn what_the_published_machine_does_there() {
    let images: Vec<Vec<u8>> = CASES.iter().map(|case| bytes(case.0)).collect();
    let expected: Vec<&str> = CASES.iter().map(|case| case.2).collect();
    assert_eq!(oracle::published_lines(&images), expected);
}

/// A top chunk with one Int constant and this code.
fn top(emit: impl Fn(&mut Chunk)) -> Vec<u8> {
    let mut chunk = Chunk {
        constants: vec![Int(0)],
        ..Chunk::default()
    };
    emit(&mut chunk);
    let image = Image {
        texts: vec![vec![]],
        chunks: vec![chunk],
    };
    image.lines().into_bytes()
}

/// `[x, x]` wrapped this many times, x an Int.
fn doubled(chunk: &mut Chunk, times: usize) {
    chunk.emit("Const", &[0]);
    for _ in 0..times {
        chunk.emit("DefineLocal", &[0]);
        chunk.emit("GetGlobal", &[0]);
        chunk.emit("GetGlobal", &[0]);
        chunk.emit("BuildArr", &[2]);
    }
}

/// Values that share their parts are far larger as trees than in memory. The model must answer all
/// the same; the published machine would walk the trees.
#[test]
fn shared_parts_do_not_hang_the_oracle() {
    let result = top(|chunk| {
        doubled(chunk, 60);
        chunk.emit("Return", &[]);
    });
    assert_eq!(outside(&result), "stop 47 242 0000 0000");
    let equal = top(|chunk| {
        doubled(chunk, 60);
        doubled(chunk, 60);
        chunk.emit("Eq", &[]);
        chunk.emit("Return", &[]);
    });
    assert_eq!(outside(&equal), "value 484 0701");
    let message = top(|chunk| {
        doubled(chunk, 60);
        chunk.emit("Negate", &[]);
    });
    assert_eq!(outside(&message), "stop 39 242 0000 0723");
}

/// A message prints a function with its chunk, and so with the functions among its constants.
#[test]
fn functions_that_hold_functions_do_not_hang_the_oracle() {
    let mut image = Image {
        texts: vec![vec![]],
        chunks: vec![Chunk::default(); 64],
    };
    for (number, chunk) in image.chunks.iter_mut().take(63).enumerate() {
        chunk.constants = vec![Function(number as u16 + 1); 2];
    }
    image.chunks[0].code = vec![op("Const"), 0, 0, op("Not")];
    let line = oracle::answer(image.lines().as_bytes());
    assert_eq!(
        line,
        "outside stop 39 2 0000 0003: the Rust walks over too many nodes"
    );
}
