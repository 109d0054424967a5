//! What the syntax gives, and what it says where it gives nothing.

use asm::{assemble, disassemble, read};
use image::{Constant, Image};

fn image(text: &str) -> Image {
    assemble(text).unwrap_or_else(|e| panic!("{e}"))
}

fn error(text: &str) -> String {
    match assemble(text) {
        Ok(_) => panic!("assembles: {text}"),
        Err(e) => e.to_string(),
    }
}

fn code(text: &str) -> Vec<u8> {
    image(&format!("chunk top/0\n{text}")).chunks[0]
        .code
        .clone()
}

fn constant(text: &str) -> Constant {
    image(&format!("chunk top/0\nconst it = {text}")).chunks[0].constants[0]
}

#[test]
fn worked_image() {
    let text = "chunk top/0\nConst Int 2\nConst Int 3\nAdd\nReturn\n";
    let lines =
        "01746F70\n02000000\n03010000000000000002\n03010000000000000003\n040000000000010113\n05\n";
    assert_eq!(image(text).lines(), lines);
    assert_eq!(read(lines.as_bytes()).unwrap(), image(text));
}

#[test]
fn constants() {
    assert_eq!(constant("Null"), Constant::Null);
    assert_eq!(
        constant("Int -9223372036854775808"),
        Constant::Int(i64::MIN)
    );
    assert_eq!(
        constant("UInt 18446744073709551615"),
        Constant::UInt(u64::MAX)
    );
    assert_eq!(
        constant("UInt 0xFFFF_FFFF_FFFF_FFFF"),
        Constant::UInt(u64::MAX)
    );
    assert_eq!(constant("SByte -128"), Constant::SByte(-128));
    assert_eq!(constant("Bool true"), Constant::Bool(true));
    assert_eq!(constant("Char '#'"), Constant::Char(0x23));
    assert_eq!(constant("Char U+10FFFF"), Constant::Char(0x10FFFF));
    assert_eq!(constant("Str \"a \\\"b\\\" # \\\\\""), Constant::Str(1));
    assert_eq!(constant("BSByte -32768"), Constant::BSByte(i16::MIN));
}

#[test]
fn floats() {
    assert_eq!(constant("Float 0.1"), Constant::Float(0.1f64.to_bits()));
    assert_eq!(
        constant("Float -inf"),
        Constant::Float(f64::NEG_INFINITY.to_bits())
    );
    assert_eq!(constant("Float nan"), Constant::Float(0x7FF8000000000000));
    assert_eq!(
        constant("Float bits 7FF0000000000001"),
        Constant::Float(0x7FF0000000000001)
    );
    assert_eq!(constant("Float -0.0"), Constant::Float(1 << 63));
    assert_eq!(
        constant("SFloat inf"),
        Constant::SFloat(f32::INFINITY.to_bits())
    );
    assert_eq!(
        constant("Float 1.7976931348623157e308"),
        Constant::Float(f64::MAX.to_bits())
    );
    assert_eq!(constant("SFloat 0.1"), Constant::SFloat(0.1f32.to_bits()));
    assert_eq!(constant("SFloat bits 00000001"), Constant::SFloat(1));
}

#[test]
fn one_rounding_for_an_sfloat() {
    // Just above halfway between two f32: by way of f64 it would round down.
    let text = "SFloat 1.00000005960464477540";
    assert_eq!(constant(text), Constant::SFloat(1.0f32.to_bits() + 1));
}

#[test]
fn inline_constants_come_once() {
    let image =
        image("chunk top/0\nConst Int 2\nConst Int 2\nConst UInt 2\nConst \"x\"\nConst Str x\n");
    let constants = [Constant::Int(2), Constant::UInt(2), Constant::Str(1)];
    assert_eq!(image.chunks[0].constants, constants);
    assert_eq!(image.texts, [b"top".to_vec(), b"x".to_vec()]);
}

#[test]
fn jumps() {
    assert_eq!(
        code("again: Jump done\nLoop again\ndone:"),
        [22, 0, 3, 24, 0, 6]
    );
    assert_eq!(code("JumpIfFalse 7\nLoop 9"), [23, 0, 7, 24, 0, 9]);
}

#[test]
fn operands() {
    assert_eq!(
        code("local x = 3\nGetLocal x\nSetLocal 258"),
        [13, 0, 3, 14, 1, 2]
    );
    assert_eq!(
        code("global g = 1\nDefineLocal g\nGetGlobal g"),
        [17, 0, 1, 15, 0, 1]
    );
    assert_eq!(code("Cast Float\nCast 300"), [36, 0, 1, 36, 1, 44]);
    assert_eq!(code("IsKind Ok Int"), [37, 0, 22, 0, 0, 0, 1, 0, 0]);
    assert_eq!(
        code("const n = Str top\nIsKind 18 n 24 @7"),
        [37, 0, 18, 0, 0, 0, 24, 0, 7]
    );
    assert_eq!(code("byte 2A ff\nbyte 00"), [0x2A, 0xFF, 0]);
}

#[test]
fn functions() {
    let text = "chunk top/0\nBuildClosure Function f 2\nConst Function second\nchunk f/1\nchunk \"f f\"/2 as second\n";
    let image = image(text);
    assert_eq!(
        image.chunks[0].constants,
        [Constant::Function(1), Constant::Function(2)]
    );
    assert_eq!(image.chunks[0].code, [35, 0, 0, 0, 2, 0, 0, 1]);
    assert_eq!(image.texts[2], b"f f");
}

/// A text, and how the message about it begins.
const MESSAGES: [(&str, &str); 31] = [
    ("", "there is no chunk"),
    (
        "chunk top/0\nConst Float 1e400",
        "line 2: `1e400` is beyond the greatest float",
    ),
    (
        "chunk top/0\nConst SFloat -1e39",
        "line 2: `-1e39` is beyond the greatest float",
    ),
    ("Add", "line 1: `Add` before the first chunk"),
    (
        "chunk top/1",
        "line 1: the first chunk is the top, its arity is 0",
    ),
    ("chunk top", "line 1: a chunk begins"),
    (
        "chunk top/0\n\nadd",
        "line 3: no instruction is called `add`: did you mean `Add`?",
    ),
    ("chunk top/0\nConst 2", "line 2: `2` is no constant"),
    (
        "chunk top/0\nConst Int 2 3",
        "line 2: Int does not take 2 values",
    ),
    (
        "chunk top/0\nConst Int 9223372036854775808",
        "line 2: Int: 9223372036854775808 is outside",
    ),
    ("chunk top/0\nConst Int x", "line 2: Int: `x` is no number"),
    (
        "chunk top/0\nConst Map 1",
        "line 2: `Map` is no kind of constant",
    ),
    ("chunk top/0\nConst Float x", "line 2: `x` is no float"),
    ("chunk top/0\nConst SFloat bits 0", "line 2: `bits 0`"),
    (
        "chunk top/0\nConst Char U+D800",
        "line 2: `U+D800` is no character",
    ),
    ("chunk top/0\nConst \"a", "line 2: the text has no closing"),
    (
        "chunk top/0\nConst \"\u{e9}\"",
        "line 2: U+00E9: a text holds only",
    ),
    (
        "chunk top/0\nConst Function f",
        "line 2: there is no chunk \"f\"",
    ),
    (
        "chunk top/0\nConst Function top",
        "line 2: a Function names a chunk that stands further down",
    ),
    (
        "chunk top/0\nConst Function f\nchunk f/0\nchunk f/1",
        "line 2: more than one chunk is called \"f\"",
    ),
    ("chunk top/0\nJump away", "line 2: there is no label `away`"),
    (
        "chunk top/0\nback:\nJump back",
        "line 3: `back` is on the other side",
    ),
    (
        "chunk top/0\nLoop on\nPop\non:",
        "line 2: `on` is on the other side",
    ),
    ("chunk top/0\nx:\nx:", "line 3: a second label `x`"),
    (
        "chunk top/0\nbyte 2",
        "line 2: `2` is not two hexadecimal digits",
    ),
    ("chunk top/0\nPop 1", "line 2: Pop has no operand"),
    ("chunk top/0\nCast Str", "line 2: Cast has one operand"),
    (
        "chunk top/0\nGetLocal -1",
        "line 2: the slot: -1 is outside",
    ),
    ("chunk top/0\nGetLocal x", "line 2: `x` names no slot"),
    ("chunk top/0\n!", "line 2: `!` means nothing here"),
    (
        "chunk top/0\ntext \"x\"",
        "line 2: `text` lines stand before the first chunk",
    ),
];

#[test]
fn messages() {
    for (text, start) in MESSAGES {
        let message = error(text);
        assert!(message.starts_with(start), "{text:?} gives {message:?}");
    }
}

#[test]
fn mosts() {
    let many = |count: usize, line: &str| line.repeat(count);
    let top = "chunk top/0\n";
    assemble(&format!("{top}{}", many(4096, "Add\n"))).unwrap();
    assert!(error(&format!("{top}{}", many(4097, "Add\n"))).starts_with("line 4098: the code"));
    assemble(&many(64, top)).unwrap();
    assert!(error(&many(65, top)).starts_with("line 65: one chunk too many"));
    assemble(&format!("{}{top}", many(255, "text \"a\"\n"))).unwrap();
    assert!(error(&format!("{}{top}", many(256, "text \"a\"\n"))).contains("one text too many"));
    let long = format!("text \"{}\"\n{top}", "a".repeat(256));
    assert!(error(&long).starts_with("line 1: a text of 256 bytes"));
    let full = format!("{top}{}", many(4096, "Add\n"));
    assert!(error(&full.repeat(8)).starts_with("the image has"));
}

#[test]
fn odd_images_come_back() {
    let lines = [
        // two equal texts, the later one in use; a name that is no word
        "0161\n0161\n01\n0122205C22\n02000001\n02000003\n02000002\n05\n",
        // unknown bytes, cut operands, jumps into the middle, past the end and before the front
        "01746F70\n02000000\n0426FF160001001800FF160000180003170FFF00\n05\n",
        "01746F70\n02000000\n042500010002\n05\n",
        // constants twice, a signalling NaN, Functions of one name, a quote as a character
        "01746F70\n02000000\n03057FF0000000000001\n03057FF0000000000001\n0306FFC00000\n03140002\n030900000027\n02010000\n02010000\n05\n",
    ];
    for lines in &lines {
        let image = read(lines.as_bytes()).unwrap();
        let text = disassemble(&image);
        assert_eq!(assemble(&text).as_ref(), Ok(&image), "{text}");
        assert_eq!(image.lines(), *lines);
    }
}
