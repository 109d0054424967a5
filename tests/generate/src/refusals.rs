//! Lines that don't load: every refusal by itself, and every tie between two, with the limits that
//! load has.

use crate::Case;
use image::line;

/// All of them, in a fixed order.
pub fn refusals() -> Vec<Case> {
    let mut cases = Vec::new();
    for (name, text) in TEXTS {
        cases.push(case(name, text.as_bytes().to_vec()));
    }
    cases.extend(each_byte());
    cases.extend(constants());
    cases.extend(counts());
    cases.extend(lengths());
    cases
}

fn case(name: &str, bytes: Vec<u8>) -> Case {
    Case {
        name: name.to_string(),
        bytes,
    }
}

/// Short images, by what is judged in them.
const TEXTS: [(&str, &str); 78] = [
    ("6: nothing at all", ""),
    ("2: a lone line feed", "\n"),
    ("2: no line feed", "0161"),
    ("2: the 05 without its line feed", "0161\n02000000\n05"),
    ("2: one digit", "0\n"),
    ("2: an odd digit more", "01610\n02000000\n05\n"),
    ("2: lower case", "016a\n02000000\n05\n"),
    ("2: a space", "01 61\n02000000\n05\n"),
    ("2: a carriage return", "0161\r\n02000000\n05\n"),
    ("2: a letter beyond F", "016G\n02000000\n05\n"),
    ("2: an empty line in the middle", "0161\n\n02000000\n05\n"),
    ("2: a sign", "01+1\n02000000\n05\n"),
    ("2: a prefix", "0x01\n02000000\n05\n"),
    ("3: a first byte 00", "00\n"),
    ("3: a first byte 06", "0161\n02000000\n06\n05\n"),
    ("3: a first byte FF", "FF00\n"),
    ("3: 05 with no chunk", "05\n"),
    ("3: 05 after texts alone", "0161\n05\n"),
    ("3: a constant first", "0300\n"),
    ("3: code first", "0413\n"),
    (
        "3: a constant before the first chunk",
        "0161\n0300\n02000000\n05\n",
    ),
    (
        "3: code before the first chunk",
        "0161\n0413\n02000000\n05\n",
    ),
    ("3: a text after a chunk", "0161\n02000000\n0162\n05\n"),
    (
        "3: a text after a constant",
        "0161\n02000000\n0300\n0162\n05\n",
    ),
    ("3: a text after code", "0161\n02000000\n0413\n0162\n05\n"),
    (
        "3: a constant after code",
        "0161\n02000000\n0413\n0300\n05\n",
    ),
    (
        "3: code after a short code line",
        "0161\n02000000\n0413\n0413\n05\n",
    ),
    ("4: a chunk before any text", "02000000\n05\n"),
    ("4: a text of byte 1F", "011F\n02000000\n05\n"),
    ("4: a text of byte 7F", "017F\n02000000\n05\n"),
    ("4: a text of byte 80", "0180\n02000000\n05\n"),
    ("4: a text of byte FF", "0161FF\n02000000\n05\n"),
    ("4: a chunk without fields", "0161\n02\n05\n"),
    ("4: a chunk with one field", "0161\n0200\n05\n"),
    ("4: a chunk's name cut", "0161\n020000\n05\n"),
    ("4: a chunk with a byte left over", "0161\n0200000000\n05\n"),
    ("4: the top with an arity", "0161\n02010000\n05\n"),
    ("4: the top with arity 255", "0161\n02FF0000\n05\n"),
    ("4: a name that is no text", "0161\n02000001\n05\n"),
    ("4: a name far off", "0161\n0200FFFF\n05\n"),
    (
        "4: a later chunk's name that is no text",
        "0161\n02000000\n02000001\n05\n",
    ),
    ("4: a constant without a kind", "0161\n02000000\n03\n05\n"),
    ("4: code of no bytes", "0161\n02000000\n04\n05\n"),
    ("4: 05 with a byte", "0161\n02000000\n0500\n"),
    ("4: 05 with a byte, then more", "0161\n02000000\n0500\n05\n"),
    (
        "4: a Function that names its own chunk",
        "0161\n02000000\n03140000\n05\n",
    ),
    (
        "4: a Function that names one below",
        "0161\n02000000\n02000000\n03140000\n05\n",
    ),
    (
        "4: a later Function that names its own",
        "0161\n02000000\n02000000\n03140001\n02000000\n05\n",
    ),
    ("6: no 05", "0161\n02000000\n0413\n"),
    ("6: texts alone", "0161\n"),
    ("6: a line feed after 05", "0161\n02000000\n05\n\n"),
    ("6: a byte after 05", "0161\n02000000\n05\n0"),
    ("6: a second 05", "0161\n02000000\n05\n05\n"),
    (
        "6: a line that would be out of order",
        "0161\n02000000\n05\n0161\n",
    ),
    ("6: bytes that are no line", "0161\n02000000\n05\nxyz"),
    (
        "7: a Function that names no chunk",
        "0161\n02000000\n03140001\n05\n",
    ),
    ("7: a Function far off", "0161\n02000000\n0314FFFF\n05\n"),
    (
        "7: the second of two Functions",
        "0161\n02000000\n03140001\n03140002\n02000000\n05\n",
    ),
    (
        "7: in a later chunk",
        "0161\n02000000\n02000000\n03140002\n05\n",
    ),
    ("2 before 3: a first byte not known, odd", "060\n"),
    (
        "2 before 3: out of order, lower case",
        "0161\n02000000\n016a\n05\n",
    ),
    ("2 before 3: 05 with no chunk, no line feed", "05"),
    ("2 before 4: a chunk short and odd", "0161\n02000\n05\n"),
    ("2 before 4: a text of 1f", "011f\n02000000\n05\n"),
    (
        "2 before 6: the last line without line feed",
        "0161\n02000000\n0413",
    ),
    (
        "3 before 4: a text of 1F after a chunk",
        "0161\n02000000\n011F\n05\n",
    ),
    (
        "3 before 4: a constant without a kind, out of order",
        "0161\n03\n",
    ),
    ("3 before 4: code of no bytes, out of order", "0161\n04\n"),
    (
        "3 before 4: code of no bytes after a short line",
        "0161\n02000000\n0413\n04\n05\n",
    ),
    (
        "3 before 4: a constant of no kind after code",
        "0161\n02000000\n0413\n03FF\n05\n",
    ),
    ("3 before 4: 05 with a byte and no chunk", "0500\n"),
    ("6 before 7: no 05", "0161\n02000000\n03140001\n"),
    (
        "6 before 7: bytes after 05",
        "0161\n02000000\n03140001\n05\n\n",
    ),
    (
        "4 before 7: the own chunk, and one that never comes",
        "0161\n02000000\n03140005\n02000000\n03140001\n05\n",
    ),
    (
        "the first line at fault: 4 before a later 2",
        "0161\n02010000\n0x\n05\n",
    ),
    (
        "the first line at fault: 3 before a later 2",
        "0161\n06\n\n05\n",
    ),
    (
        "the first line at fault: 2 before a later 3",
        "0161\n02000000\n\n06\n05\n",
    ),
    (
        "the first line at fault: 4 before no 05",
        "0161\n02000009\n0413\n",
    ),
];

/// Each first byte by itself, and each byte of a text that is next to one that may stand there.
fn each_byte() -> Vec<Case> {
    let mut cases = Vec::new();
    for first in (6..=255).step_by(13) {
        let bytes = format!("0161\n{first:02X}\n02000000\n05\n");
        cases.push(case("3: a first byte", bytes.into_bytes()));
    }
    for digit in b"/:@G`ag \t\0\x7F\xFF" {
        let mut bytes = b"016".to_vec();
        bytes.push(*digit);
        bytes.extend_from_slice(b"\n02000000\n05\n");
        cases.push(case("2: a byte that is no digit", bytes));
    }
    for byte in [0x00, 0x0A, 0x1F, 0x7F, 0x80, 0xC3] {
        let bytes = line(1, &[0x41, byte, 0x42]) + "02000000\n05\n";
        cases.push(case("4: a byte that no text has", bytes.into_bytes()));
    }
    cases
}

/// Every kind's payload one byte short and one byte long, and every kind that no constant has.
fn constants() -> Vec<Case> {
    let widths = [0, 8, 8, 4, 4, 8, 4, 1, 2, 4, 1, 1, 2, 2];
    let mut cases = Vec::new();
    let mut add = |name: &str, fields: &[u8]| {
        let bytes = format!("0161\n02000000\n{}0413\n05\n", line(3, fields));
        cases.push(case(name, bytes.into_bytes()));
    };
    for (kind, width) in widths.into_iter().enumerate().chain([(20, 2)]) {
        let mut fields = vec![kind as u8];
        fields.resize(1 + width, 0);
        if width > 0 {
            add("4: a payload one byte short", &fields[..width]);
            add("4: a constant's kind alone", &fields[..1]);
        }
        fields.push(0);
        add("4: a payload one byte long", &fields);
    }
    for kind in [
        14, 15, 16, 17, 18, 19, 21, 22, 23, 24, 25, 26, 127, 128, 255,
    ] {
        add("4: a kind that no constant has", &[kind]);
        add("4: a kind that no constant has, two bytes", &[kind, 0, 0]);
    }
    for byte in [2, 3, 127, 255] {
        add("4: a Bool of neither", &[7, byte]);
    }
    for scalar in [0xD800u32, 0xDBFF, 0xDC00, 0xDFFF, 0x110000, 0xFFFFFFFF] {
        let b = scalar.to_be_bytes();
        add("4: a Char that is no scalar", &[9, b[0], b[1], b[2], b[3]]);
    }
    for text in [1u16, 2, 255, 256, 65_535] {
        let b = text.to_be_bytes();
        add("4: a Str that names no text", &[8, b[0], b[1]]);
    }
    for chunk in [0u16, 1, 63, 64, 65_535] {
        let b = chunk.to_be_bytes();
        add("a Function, 4 or 7", &[20, b[0], b[1]]);
    }
    cases
}

/// One too many of everything that is counted, alone and tied with 2, 3 and 4.
fn counts() -> Vec<Case> {
    let top = "02000000\n";
    let mut cases = Vec::new();
    let texts = "01\n".repeat(256);
    for (name, rest) in TEXT_COUNTS {
        cases.push(case(name, [&texts, rest].concat().into_bytes()));
    }
    let chunks = ["01\n", &top.repeat(64)].concat();
    for (name, rest) in CHUNK_COUNTS {
        cases.push(case(name, [&chunks, rest].concat().into_bytes()));
    }
    let constants = ["01\n", top, &"0300\n".repeat(256)].concat();
    for (name, rest) in CONSTANT_COUNTS {
        cases.push(case(name, [&constants, rest].concat().into_bytes()));
    }
    let (full, longer) = (line(4, &[20; 64]), line(4, &[20; 65]));
    let code = ["01\n", top, &full.repeat(64)].concat();
    let code_counts = [
        ("5: a code byte too many", "0414\n"),
        ("5: a code line too many", &full),
        ("2 before 5: code", "041\n"),
        ("4 before 5: code of no bytes", "04\n"),
        ("4 before 5: code over 64 bytes", &longer),
        ("3 before 5: a text after full code", "01\n"),
    ];
    for (name, rest) in code_counts {
        cases.push(case(name, [&code, rest, "05\n"].concat().into_bytes()));
    }
    cases
}

/// What comes after 256 texts.
const TEXT_COUNTS: [(&str, &str); 5] = [
    ("5: a text too many", "01\n02000000\n05\n"),
    ("2 before 5: texts", "010\n02000000\n05\n"),
    ("4 before 5: texts", "011F\n02000000\n05\n"),
    ("5 before a later 2: texts", "01\n\n"),
    ("3 after 256 texts", "0300\n02000000\n05\n"),
];

/// What comes after 64 chunks.
const CHUNK_COUNTS: [(&str, &str); 5] = [
    ("5: a chunk too many", "02000000\n05\n"),
    ("2 before 5: chunks", "0200000\n05\n"),
    ("3 before 5: a text after 64 chunks", "01\n05\n"),
    ("4 before 5: chunks", "02000001\n05\n"),
    ("4 before 5: a chunk short", "020000\n05\n"),
];

/// What comes after 256 constants.
const CONSTANT_COUNTS: [(&str, &str); 6] = [
    ("5: a constant too many", "0300\n05\n"),
    ("2 before 5: constants", "030\n05\n"),
    ("3 before 5: constants", "0413\n0300\n05\n"),
    ("4 before 5: constants", "0302\n05\n"),
    ("4 before 5: a Function", "03140000\n05\n"),
    ("5 before 7", "03140009\n05\n"),
];

/// Lines as long as they may be, and longer.
fn lengths() -> Vec<Case> {
    let mut cases = Vec::new();
    for (name, before, first, bytes, after) in LENGTHS {
        let fill = [0, b'x', 0, 0, 20][first as usize];
        let long = line(first, &vec![fill; bytes]);
        cases.push(case(name, [before, &long, after].concat().into_bytes()));
    }
    let code = |bytes: usize| line(4, &vec![20; bytes]);
    for (name, lines) in [
        ("4: code over 64 bytes after a full line", [64, 65]),
        ("3 before 4: over 64 bytes after a short line", [1, 65]),
        ("3: a full line after a short one", [63, 64]),
    ] {
        let lines = [TOP, &code(lines[0]), &code(lines[1]), "05\n"];
        cases.push(case(name, lines.concat().into_bytes()));
    }
    let digits = line(1, &[b'x'; 255]);
    let odd = [digits.trim_end(), "0\n", REST].concat();
    cases.push(case("2: 513 digits", odd.into_bytes()));
    let endless = digits.trim_end().repeat(2);
    cases.push(case(
        "2: 1024 digits and no line feed",
        endless.into_bytes(),
    ));
    cases
}

const TOP: &str = "0161\n02000000\n";
const REST: &str = "02000000\n05\n";

/// What stands before the line, its first byte, how many bytes its fields have, what comes after.
const LENGTHS: [(&str, &str, u8, usize, &str); 8] = [
    ("2: a text of 256 bytes", "", 1, 256, REST),
    ("2: a text of 300 bytes", "", 1, 300, REST),
    ("4: a chunk of 512 digits", "0161\n", 2, 255, "05\n"),
    ("2: a chunk of 514 digits", "0161\n", 2, 256, "05\n"),
    ("4: code of 65 bytes", TOP, 4, 65, "05\n"),
    ("4: code of 128 bytes", TOP, 4, 128, "05\n"),
    ("4: code of 255 bytes", TOP, 4, 255, "05\n"),
    ("2: code of 256 bytes", TOP, 4, 256, "05\n"),
];
