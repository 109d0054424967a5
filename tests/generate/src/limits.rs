//! Images at each most of document 01, one below it and one above it.

use crate::Case;
use asm::assemble;
use image::{Chunk, Constant, Image};

/// All of them.
pub fn limits() -> Vec<Case> {
    let mut cases = Vec::new();
    for (word, step) in [("below", -1), ("at", 0), ("above", 1)] {
        let at = |most: i64| (most + step) as usize;
        let mut add = |what: &str, image: Image| {
            let name = format!("{what} {word}");
            cases.push(Case::of(&name, &image));
        };
        add("image", long_image(at(65_536)));
        add("texts", texts(at(256)));
        add("chunks", chunks(at(64)));
        add("constants", constants(at(256)));
        add("code", code(at(4_096)));
        for (what, image) in run_limits(step) {
            add(what, image);
        }
    }
    cases.extend(beside_other_faults());
    cases.extend(shared_trees());
    cases
}

/// Values whose tree is far larger than their cells: whoever walks the tree does not come back.
fn shared_trees() -> Vec<Case> {
    let double = "GetLocal 1\nGetLocal 1\nBuildArr 2\nSetLocal 1\nPop";
    let grown = |count: usize| {
        let loops = rounds(count, double);
        format!("PushScope\nConst Null\nDefineLocal 1\n{loops}GetLocal 1\n")
    };
    let texts = [
        (
            "a tree of 2^60 leaves, with itself",
            format!("{}GetLocal 1\nEq\nReturn", grown(60)),
        ),
        ("a tree of 2^60 leaves, with another", {
            let top = "Const Function f\nCall 0\nConst Function f\nCall 0\nEq\nReturn";
            format!("{top}\nchunk f/0\n{}Return", grown(60))
        }),
        (
            "a tree of 2^60 leaves, as a result",
            format!("{}Return", grown(60)),
        ),
        (
            "a tree of 2^60 leaves, a kind test",
            format!("{}IsKind Arr\nReturn", grown(60)),
        ),
        (
            "a tree of 2^10 leaves, with itself",
            format!("{}GetLocal 1\nEq\nReturn", grown(10)),
        ),
        (
            "a tree of 2^9 leaves, as a result",
            format!("{}Return", grown(9)),
        ),
        ("a tree of 2^64 leaves", format!("{}Return", grown(65))),
    ];
    let made =
        |(name, text): &(&str, String)| Case::of(name, &program(&format!("chunk t/0\n{text}\n")));
    texts.iter().map(made).collect()
}

/// The most that a run can pass, `step` away from it.
fn run_limits(step: i64) -> Vec<(&'static str, Image)> {
    let at = |most: i64| (most + step) as usize;
    vec![
        ("operands", operands(at(256))),
        ("operands, end of code", operands_end(at(256), "")),
        ("operands, past the end", operands_end(at(256), "Jump 9\n")),
        ("operands, end of a callee", operands_callee(at(256))),
        ("locals", locals(at(1_024))),
        ("locals, closure", locals_closure(at(1_024))),
        ("scope starts", scopes(at(256))),
        ("scope starts, call", scopes_call(at(256))),
        ("frames", frames(at(64), "Return")),
        ("frames, end of code", frames(at(64), "Pop")),
        ("globals", globals(at(256))),
        ("cells, BuildArr", cells(at(4_096), 3, "BuildArr 3")),
        ("cells, BuildTuple", cells(at(4_096), 3, "BuildTuple 3")),
        ("cells, Ok", cells(at(4_096), 1, "Ok\nPop\nPop")),
        ("cells, Err", cells(at(4_096), 1, "Err\nPop\nPop")),
        ("cells, Error", cells(at(4_096), 1, "Error\nPop\nPop")),
        ("cells, ArrSet", cells_arr_set(at(4_096))),
        ("cells, BuildClosure", cells_closure(at(4_096))),
        ("nesting, Ok", nesting(at(64), "Ok")),
        ("nesting, Err", nesting(at(64), "Err")),
        ("nesting, Error", nesting(at(64), "Error")),
        ("nesting, BuildArr", nesting(at(64), "BuildArr 1")),
        ("nesting, BuildTuple", nesting(at(64), "BuildTuple 1")),
        ("nesting, BuildClosure", nesting_closure(at(64))),
        ("nesting, ArrSet", nesting_arr_set(at(64))),
        ("result", result(at(4_096))),
        (
            "budget",
            budget(at(1_000_000) - 999_999, "Const Null\nReturn\n"),
        ),
        ("budget, end of code", budget(at(1_000_000) - 999_997, "")),
        (
            "budget, unknown instruction",
            budget(at(1_000_000) - 999_997, "byte FF\n"),
        ),
    ]
}

fn program(text: &str) -> Image {
    assemble(text).unwrap_or_else(|error| panic!("{error} in\n{text}"))
}

fn named(text: &str) -> Vec<Vec<u8>> {
    vec![text.as_bytes().to_vec()]
}

/// An image of so many bytes: full chunks, then texts to measure.
pub fn long_image(bytes: usize) -> Image {
    let full = Chunk {
        constants: vec![Constant::Null],
        code: [0, 0, 0, 19].repeat(1_024),
        ..Chunk::default()
    };
    let mut image = Image {
        texts: named(""),
        chunks: vec![full; 7],
    };
    // A line has an odd number of bytes, so the number of lines settles whether the image has.
    while !(bytes - image.lines().len()).is_multiple_of(2) || image.texts.len() < 20 {
        image.texts.push(vec![]);
    }
    let mut missing = (bytes - image.lines().len()) / 2;
    for text in &mut image.texts {
        let part = missing.min(255);
        *text = vec![b'x'; part];
        missing -= part;
    }
    image
}

fn texts(count: usize) -> Image {
    let mut top = Chunk {
        name: count as u16 - 1,
        constants: vec![Constant::Str(count as u16 - 1)],
        ..Chunk::default()
    };
    top.emit("Const", &[0]);
    top.emit("Return", &[]);
    Image {
        texts: vec![b"t".to_vec(); count],
        chunks: vec![top],
    }
}

fn chunks(count: usize) -> Image {
    let mut image = program("chunk t/0\nConst Null\nCall 0\nReturn\n");
    image.chunks[0].constants[0] = Constant::Function(count as u16 - 1);
    while image.chunks.len() < count {
        image.chunks.push(Chunk::default());
    }
    image
}

fn constants(count: usize) -> Image {
    let mut top = Chunk {
        constants: (0..count).map(|n| Constant::BByte(n as u16)).collect(),
        ..Chunk::default()
    };
    top.emit("Const", &[count as u16 - 1]);
    top.emit("Return", &[]);
    Image {
        texts: named("t"),
        chunks: vec![top],
    }
}

fn code(bytes: usize) -> Image {
    let mut image = program("chunk t/0\nConst Null\n");
    let top = &mut image.chunks[0];
    top.code = [0, 0, 0, 18].repeat(1_100);
    top.code.truncate(bytes - 2);
    // A PushScope has one byte: what is left over before the end.
    while !(top.code.len()).is_multiple_of(4) {
        top.code.pop();
    }
    top.code.resize(bytes, 20);
    image
}

fn operands(count: usize) -> Image {
    program(&format!(
        "chunk t/0\n{}Return\n",
        "Const Bool true\n".repeat(count)
    ))
}

/// The Null at the end is the last of so many operands.
fn operands_end(count: usize, before: &str) -> Image {
    let pushed = "Const Bool true\n".repeat(count - 1);
    program(&format!("chunk t/0\n{pushed}{before}"))
}

fn operands_callee(count: usize) -> Image {
    let pushed = "Const Bool true\n".repeat(count - 1);
    program(&format!(
        "chunk t/0\nConst Function f\nCall 0\nReturn\nchunk f/0\n{pushed}"
    ))
}

fn locals(count: usize) -> Image {
    let slot = count - 1;
    program(&format!(
        "chunk t/0\nPushScope\nConst Int 7\nDefineLocal {slot}\nGetLocal {slot}\nReturn\n"
    ))
}

/// A closure that captured nothing lays its start in Nulls, then its argument.
fn locals_closure(count: usize) -> Image {
    let start = count - 1;
    program(&format!(
        "chunk t/0\nBuildClosure Function f {start}\nConst Int 7\nCall 1\nReturn
chunk f/1\nGetLocal {start}\nReturn\n"
    ))
}

fn scopes(count: usize) -> Image {
    let open = "PushScope\n".repeat(count);
    program(&format!("chunk t/0\n{open}Const Int 7\nReturn\n"))
}

fn scopes_call(count: usize) -> Image {
    let open = "PushScope\n".repeat(count - 1);
    program(&format!(
        "chunk t/0\n{open}Const Function f\nCall 0\nReturn\nchunk f/0\nConst Int 7\nReturn\n"
    ))
}

/// `f(f, n)` until so many frames are on, the top included.
fn frames(count: usize, end: &str) -> Image {
    let deep = count - 2;
    program(&format!(
        "chunk t/0\nConst Function f\nConst Function f\nConst Int {deep}\nCall 2\nReturn
chunk f/2\nGetLocal 1\nConst Int 0\nEq\nJumpIfFalse on\nConst Int 7\n{end}\n{}
on: GetLocal 0\nGetLocal 0\nGetLocal 1\nConst Int 1\nSub\nCall 2\nReturn\n",
        if end == "Pop" { "Jump 999" } else { "" }
    ))
}

fn globals(count: usize) -> Image {
    let slot = count - 1;
    program(&format!(
        "chunk t/0\nConst Int 7\nDefineLocal {slot}\nGetGlobal {slot}\nReturn\n"
    ))
}

/// A loop of so many rounds, in a scope of its own.
fn rounds(count: usize, body: &str) -> String {
    format!(
        "PushScope\nConst Int 0\nDefineLocal 0
again: GetLocal 0\nConst Int {count}\nLess\nJumpIfFalse done\n{body}
GetLocal 0\nConst Int 1\nAdd\nSetLocal 0\nPop\nLoop again\ndone:\n"
    )
}

/// All cells but the last few by Ok, the last few by another instruction.
fn cells(count: usize, last: usize, instruction: &str) -> Image {
    let loops = rounds(count - last, "Const Null\nOk\nPop");
    program(&format!(
        "chunk t/0\n{loops}Const Null\nConst Null\nConst Null\n{instruction}\nReturn\n"
    ))
}

/// An array of three takes three cells, and three again when it is set.
fn cells_arr_set(count: usize) -> Image {
    let loops = rounds(count - 6, "Const Null\nOk\nPop");
    program(&format!(
        "chunk t/0\n{loops}Const Null\nConst Null\nConst Null\nBuildArr 3
Const Int 1\nConst Int 7\nArrSet\nReturn\n"
    ))
}

fn cells_closure(count: usize) -> Image {
    let loops = rounds(count - 2, "Const Null\nOk\nPop");
    program(&format!(
        "chunk t/0\n{loops}Const Null\nDefineLocal 1\nBuildClosure Function f 0\nReturn\nchunk f/0\n"
    ))
}

/// A value so deep, by one instruction.
fn deep(count: usize, instruction: &str) -> String {
    let body = format!("GetLocal 1\n{instruction}\nSetLocal 1\nPop");
    format!(
        "PushScope\nConst Null\nDefineLocal 1\n{}",
        rounds(count, &body)
    )
}

fn nesting(count: usize, instruction: &str) -> Image {
    let deep = deep(count, instruction);
    program(&format!("chunk t/0\n{deep}GetLocal 1\nReturn\n"))
}

fn nesting_closure(count: usize) -> Image {
    let body = "BuildClosure Function f 1\nSetLocal 1\nPop";
    let loops = rounds(count, body);
    program(&format!(
        "chunk t/0\nPushScope\nConst Null\nDefineLocal 1\n{loops}GetLocal 1\nReturn\nchunk f/0\n"
    ))
}

/// A shallow array whose part is replaced by a deep one.
fn nesting_arr_set(count: usize) -> Image {
    let deep = deep(count - 1, "Err");
    program(&format!(
        "chunk t/0\n{deep}Const Int 1\nConst Int 2\nBuildArr 2\nConst Int 0\nGetLocal 1\nArrSet\nReturn\n"
    ))
}

/// A result of so many coded bytes: a tuple of two arrays, of Ints and Nulls.
fn result(bytes: usize) -> Image {
    let rest = bytes - 3 - (3 + 9 * 240) - 3;
    let (ints, nulls) = (rest / 9, rest % 9);
    let int = "Const Int -1\n";
    let text = format!(
        "chunk t/0\n{}BuildArr 240\n{}{}BuildArr {}\nBuildTuple 2\nReturn\n",
        int.repeat(240),
        int.repeat(ints),
        "Const Null\n".repeat(nulls),
        ints + nulls,
    );
    program(&text)
}

/// 999,997 instructions, then as many jumps to the next instruction, then the end given.
fn budget(jumps: usize, end: &str) -> Image {
    let loops = rounds(99_999, "");
    program(&format!(
        "chunk t/0\n{loops}{}{end}",
        "Jump 0\n".repeat(jumps)
    ))
}

/// Where another fault holds as well, 45 gives way to it.
fn beside_other_faults() -> Vec<Case> {
    let full = "Const Bool true\n".repeat(256);
    let cells = rounds(4_096 - 1, "Const Null\nOk\nPop") + "Const Null\nBuildArr 1\n";
    let scopes = "PushScope\n".repeat(255);
    let sets = [
        (full, AFTER_256_OPERANDS),
        (cells, AFTER_4096_CELLS),
        (scopes, AFTER_255_SCOPES),
        (String::new(), HIGH_SLOTS),
    ];
    let mut cases = Vec::new();
    for (before, ends) in sets {
        for (name, end) in ends {
            let image = program(&format!("chunk t/0\n{before}{end}\n"));
            cases.push(Case::of(name, &image));
        }
    }
    for (name, deepest) in AT_64_FRAMES {
        let image = program(&format!(
            "chunk t/0\nConst Function f\nConst Function f\nConst Int 62\nCall 2\nReturn
chunk f/2\nGetLocal 1\nConst Int 0\nEq\nJumpIfFalse on\n{deepest}\nCall 0\nReturn
on: GetLocal 0\nGetLocal 0\nGetLocal 1\nConst Int 1\nSub\nCall 2\nReturn\nchunk g/1\n"
        ));
        cases.push(Case::of(name, &image));
    }
    cases
}

const AFTER_256_OPERANDS: &[(&str, &str)] = &[
    ("34 with 256 operands", "GetLocal 0"),
    ("35 with 256 operands", "GetGlobal 0"),
    ("32 with 256 operands", "Const @7"),
    ("32 with 256 operands, closure", "BuildClosure @0 0"),
    (
        "44 with 256 operands",
        "PushScope\nBuildClosure Function f 9\nchunk f/0",
    ),
    ("45 with 256 operands, BuildArr", "BuildArr 0"),
];

const AFTER_4096_CELLS: &[(&str, &str)] = &[
    ("41 with the cells full", "Const Int 1\nConst Null\nArrSet"),
    (
        "39 with the cells full",
        "Const Bool true\nConst Null\nArrSet",
    ),
    ("45 with the cells full", "Const Int 0\nConst Null\nArrSet"),
    ("31 with the cells full", "BuildArr 2"),
    ("no cell for an empty array", "BuildArr 0\nReturn"),
    (
        "no cell for a closure without captures",
        "BuildClosure Function f 1\nReturn\nchunk f/0",
    ),
];

const AFTER_255_SCOPES: &[(&str, &str)] = &[
    (
        "36 with 256 scopes",
        "Const Function f\nCall 0\nReturn\nchunk f/0\nPopScope",
    ),
    (
        "43 with 256 scopes",
        "PushScope\nConst Function f\nCall 0\nReturn\nchunk f/1",
    ),
    (
        "39 with 256 scopes",
        "PushScope\nConst Null\nCall 0\nReturn",
    ),
];

const HIGH_SLOTS: &[(&str, &str)] = &[
    ("31 before a global too high", "DefineLocal 256"),
    ("31 before a local too high", "PushScope\nDefineLocal 1024"),
    (
        "the greatest slot",
        "PushScope\nConst Null\nDefineLocal 65535",
    ),
    ("the greatest global", "Const Null\nDefineLocal 65535"),
];

/// What is called where 64 frames are on.
const AT_64_FRAMES: &[(&str, &str)] = &[
    ("43 with 64 frames", "Const Function g"),
    ("43 with 64 frames, closure", "BuildClosure Function g 0"),
    ("39 with 64 frames", "Const Int 7"),
];
