//! Each instruction's faults, one by one and two at a time, so that their order shows.

use super::finished;
use crate::Case;
use crate::code::Code;
use asm::assemble;
use image::{Constant, INSTRUCTIONS, Image};

/// All of them.
pub fn faults() -> Vec<Case> {
    let mut cases = missing_operands();
    cases.extend(cut_operands());
    cases.extend(unknown());
    cases.extend(unserved());
    for (name, body) in BODIES {
        cases.push(Case::of(name, &top(body)));
    }
    cases
}

fn top(body: &str) -> Image {
    let text = format!("chunk t/0\n{body}\nchunk f/1\nGetLocal 0\nReturn\nchunk g/0\nPopScope\n");
    assemble(&text).unwrap_or_else(|error| panic!("{error} in\n{text}"))
}

/// Operands with which an instruction would go on, if it had what it takes off.
fn plausible(name: &str, operands: usize) -> Vec<u16> {
    match name {
        "Call" => vec![1],
        "BuildArr" | "BuildTuple" => vec![3],
        _ => vec![0; operands],
    }
}

/// Every instruction on zero, one and two operands.
fn missing_operands() -> Vec<Case> {
    let mut cases = Vec::new();
    for (name, operands) in INSTRUCTIONS {
        for height in 0..3 {
            let mut code = Code::default();
            code.constant(Constant::Str(0));
            for _ in 0..height {
                code.push(Constant::Bool(true));
            }
            code.op(name, &plausible(name, operands));
            cases.push(Case::of(
                &format!("{name} on {height} operands"),
                &finished(code),
            ));
        }
    }
    cases
}

/// Every instruction with operands, cut at every byte; with nothing on the stack, so that 30 is seen
/// to come before 31.
fn cut_operands() -> Vec<Case> {
    let mut cases = Vec::new();
    for (name, operands) in INSTRUCTIONS {
        for left in 0..2 * operands {
            let mut code = Code::default();
            code.op(name, &plausible(name, operands));
            code.chunk.code.truncate(1 + left);
            let image = Image {
                texts: vec![vec![]],
                chunks: vec![code.chunk],
            };
            cases.push(Case::of(&format!("{name}, its operands cut"), &image));
        }
    }
    cases
}

fn unknown() -> Vec<Case> {
    let bytes = [38, 39, 40, 47, 48, 64, 127, 128, 255];
    let made = |byte: u8| {
        let image = top(&format!("Const Null\nbyte {byte:02X}\nReturn"));
        Case::of(&format!("unknown instruction {byte}"), &image)
    };
    bytes.into_iter().map(made).collect()
}

/// One value of each kind.
const KINDS: [&str; 21] = [
    "Const Null",
    "Const Int 1",
    "Const UInt 1",
    "Const SInt 1",
    "Const SUInt 1",
    "Const Float 1.0",
    "Const SFloat 1.0",
    "Const Bool true",
    "Const \"s\"",
    "Const Char 'c'",
    "Const Byte 1",
    "Const SByte 1",
    "Const BByte 1",
    "Const BSByte 1",
    "Const Int 1\nBuildArr 1",
    "Const Int 1\nBuildTuple 1",
    "Const Function f",
    "Const Int 1\nOk",
    "Const Int 1\nErr",
    "Const Int 1\nError",
    "BuildClosure Function f 0",
];

/// Every instruction that serves only some kinds, on every kind.
fn unserved() -> Vec<Case> {
    let mut cases = Vec::new();
    for kind in KINDS {
        let bodies = [
            format!("{kind}\nNegate\nReturn"),
            format!("{kind}\nNot\nReturn"),
            format!("{kind}\nJumpIfFalse 0\nConst Null\nReturn"),
            format!("{kind}\nArrLen\nReturn"),
            format!("{kind}\nCast Int\nReturn"),
            format!("{kind}\nCast SFloat\nReturn"),
            format!("{kind}\nPropagate\nReturn"),
            format!("{kind}\nConst Int 0\nIndex\nReturn"),
            format!("{kind}\nConst Int 9\nIndex\nReturn"),
            format!("{kind}\nConst Bool true\nIndex\nReturn"),
            format!("{kind}\nConst Int 0\nConst Null\nArrSet\nReturn"),
            format!("Const Int 8\nConst Int 9\nBuildArr 2\n{kind}\nIndex\nReturn"),
            format!("Const Int 8\nConst Int 9\nBuildTuple 2\n{kind}\nIndex\nReturn"),
            format!("Const Int 8\nConst Int 9\nBuildArr 2\n{kind}\nConst Null\nArrSet\nReturn"),
            format!("{kind}\nConst Int 5\nCall 1\nReturn"),
            format!("{kind}\nCall 0\nReturn"),
            format!("{kind}\n{kind}\nAdd\nReturn"),
            format!("{kind}\n{kind}\nLess\nReturn"),
            format!("{kind}\nConst Int 1\nMul\nReturn"),
            format!("Const Byte 1\n{kind}\nDiv\nReturn"),
            format!("{kind}\nConst Float 1.0\nGreater\nReturn"),
        ];
        for body in bodies {
            let name = body.replace('\n', ", ");
            cases.push(Case::of(&name, &top(&body)));
        }
    }
    cases
}

/// What the systematic cases above don't have.
const BODIES: [(&str, &str); 74] = [
    (
        "38 before 37",
        "Const Int -9223372036854775808\nConst Int 0\nDiv\nReturn",
    ),
    (
        "37 of the least by -1",
        "Const Int -9223372036854775808\nConst Int -1\nDiv\nReturn",
    ),
    ("39 before 38", "Const Int 1\nConst Byte 0\nDiv\nReturn"),
    ("the order of Sub", "Const Int 7\nConst Int 2\nSub\nReturn"),
    (
        "the order of Div",
        "Const Float 7.0\nConst Float 2.0\nDiv\nReturn",
    ),
    (
        "the order of Less",
        "Const Int 7\nConst Int 2\nLess\nReturn",
    ),
    ("SetLocal: 31 before 34", "SetLocal 0"),
    ("SetLocal: 34", "Const Null\nSetLocal 0"),
    (
        "SetLocal keeps its operand",
        "PushScope\nConst Int 1\nDefineLocal 0\nConst Int 2\nSetLocal 0\nGetLocal 0\nBuildArr 2\nReturn",
    ),
    (
        "GetLocal: 34 past the live ones",
        "PushScope\nConst Null\nDefineLocal 1\nGetLocal 2",
    ),
    (
        "GetLocal of a gap",
        "PushScope\nConst Int 1\nDefineLocal 2\nGetLocal 1\nReturn",
    ),
    (
        "GetLocal after PopScope",
        "PushScope\nConst Int 1\nDefineLocal 0\nPopScope\nGetLocal 0",
    ),
    (
        "GetLocal of a local cut by number",
        "PushScope\nPushScope\nConst Int 1\nDefineLocal 0\nPopScope\nGetLocal 0",
    ),
    (
        "an inner scope sets an outer slot",
        "PushScope\nConst Int 1\nDefineLocal 0\nPushScope\nConst Int 2\nDefineLocal 0\nPopScope\nGetLocal 0\nReturn",
    ),
    ("GetGlobal: 35", "GetGlobal 0"),
    (
        "GetGlobal of a gap",
        "Const Int 1\nDefineLocal 2\nGetGlobal 1\nReturn",
    ),
    ("SetGlobal: 31 before 35", "SetGlobal 0"),
    ("SetGlobal: 35", "Const Null\nSetGlobal 0"),
    (
        "SetGlobal keeps its operand",
        "Const Int 1\nDefineLocal 0\nConst Int 2\nSetGlobal 0\nGetGlobal 0\nBuildArr 2\nReturn",
    ),
    (
        "a global in a scope",
        "Const Int 1\nDefineLocal 0\nPushScope\nConst Int 2\nDefineLocal 0\nGetGlobal 0\nGetLocal 0\nBuildTuple 2\nReturn",
    ),
    (
        "a global after the scope",
        "PushScope\nPopScope\nConst Int 2\nDefineLocal 0\nGetGlobal 0\nReturn",
    ),
    ("Return on nothing", "Return"),
    ("the end on nothing", ""),
    ("the end leaves operands", "Const Int 1"),
    ("Return of one of two", "Const Int 1\nConst Int 2\nReturn"),
    ("PopScope: 36 at the top", "PopScope"),
    (
        "PopScope: 36 after a scope",
        "PushScope\nPopScope\nPopScope",
    ),
    (
        "PopScope: 36 in a callee",
        "Const Function g\nCall 0\nReturn",
    ),
    ("Jump past the end", "Const Int 1\nJump 65535"),
    ("Jump to the end", "Jump end\nConst Int 1\nReturn\nend:"),
    (
        "JumpIfFalse, false",
        "Const Bool false\nJumpIfFalse no\nConst Int 1\nReturn\nno: Const Int 2\nReturn",
    ),
    (
        "JumpIfFalse, true",
        "Const Bool true\nJumpIfFalse no\nConst Int 1\nReturn\nno: Const Int 2\nReturn",
    ),
    (
        "JumpIfFalse past the end",
        "Const Bool false\nJumpIfFalse 65535",
    ),
    ("JumpIfFalse: 31", "JumpIfFalse 0"),
    ("Loop before offset 0", "Const Null\nLoop 7"),
    ("Loop to offset 0 for ever", "Loop 3"),
    ("Loop of distance 0", "Const Int 1\nLoop 0\nReturn"),
    (
        "a loop that ends",
        "PushScope\nConst Int 3\nDefineLocal 0\nagain: GetLocal 0\nConst Int 0\nGreater\nJumpIfFalse out\nGetLocal 0\nConst Int 1\nSub\nSetLocal 0\nPop\nLoop again\nout: GetLocal 0\nReturn",
    ),
    ("Call: 31 before 39", "Const Int 1\nCall 1"),
    ("Call: 31, the greatest count", "Const Int 1\nCall 65535"),
    (
        "Call: 39 before 43",
        "Const Int 1\nConst Int 1\nConst Int 1\nCall 2",
    ),
    ("Call: 43, too few", "Const Function f\nCall 0"),
    (
        "Call: 43, too many",
        "Const Function f\nConst Null\nConst Null\nCall 2",
    ),
    ("Call: 43 of a closure", "BuildClosure Function f 0\nCall 0"),
    (
        "a call's argument",
        "Const Function f\nConst Int 5\nCall 1\nReturn",
    ),
    (
        "a closure's argument",
        "BuildClosure Function f 0\nConst Int 5\nCall 1\nReturn",
    ),
    (
        "a closure's Null",
        "BuildClosure Function f 1\nConst Int 5\nCall 1\nReturn",
    ),
    (
        "a closure's capture",
        "PushScope\nConst Int 8\nDefineLocal 0\nBuildClosure Function f 0\nConst Int 5\nCall 1\nReturn",
    ),
    (
        "a capture is a copy",
        "PushScope\nConst Int 8\nDefineLocal 0\nBuildClosure Function f 0\nConst Int 9\nSetLocal 0\nPop\nConst Int 5\nCall 1\nReturn",
    ),
    ("Propagate of Ok", "Const Int 1\nOk\nPropagate\nReturn"),
    (
        "Propagate of Err",
        "Const Int 1\nErr\nPropagate\nConst Int 2\nReturn",
    ),
    (
        "Propagate of Error",
        "Const Int 1\nError\nPropagate\nReturn",
    ),
    (
        "Propagate with more operands",
        "Const Int 7\nConst Int 1\nErr\nPropagate",
    ),
    ("BuildArr: 31", "Const Null\nBuildArr 2"),
    (
        "BuildArr: 31, the greatest count",
        "Const Null\nBuildArr 65535",
    ),
    ("BuildTuple: 31", "Const Null\nBuildTuple 2"),
    (
        "Index: 39 of the container before 39 of the index",
        "Const Null\nConst Null\nIndex",
    ),
    (
        "Index: 39 of the index before 41",
        "BuildArr 0\nConst SInt -1\nIndex",
    ),
    ("Index: 41", "BuildArr 0\nConst Int 0\nIndex"),
    (
        "Index: 41 below 0",
        "Const Null\nBuildTuple 1\nConst Int -1\nIndex",
    ),
    (
        "Index: 41 of the greatest UInt",
        "Const Null\nBuildArr 1\nConst UInt 18446744073709551615\nIndex",
    ),
    ("ArrSet: 31 with two", "Const Null\nConst Null\nArrSet"),
    (
        "ArrSet: 39 of a Tuple",
        "Const Null\nBuildTuple 1\nConst Int 0\nConst Null\nArrSet",
    ),
    (
        "ArrSet: 41",
        "Const Null\nBuildArr 1\nConst Byte 1\nConst Null\nArrSet",
    ),
    (
        "ArrSet gives a new array",
        "PushScope\nConst Int 1\nConst Int 2\nBuildArr 2\nDefineLocal 0\nGetLocal 0\nConst Int 0\nConst Int 9\nArrSet\nGetLocal 0\nBuildTuple 2\nReturn",
    ),
    (
        "BuildClosure: 32 before 44",
        "PushScope\nBuildClosure Int 1 9",
    ),
    (
        "BuildClosure: 32 of a missing constant",
        "PushScope\nBuildClosure @9 9",
    ),
    ("BuildClosure: 44", "PushScope\nBuildClosure Function f 1"),
    (
        "BuildClosure at the top has no 44",
        "BuildClosure Function f 65535\nReturn",
    ),
    ("Cast: 31 before 30", "Cast 10"),
    ("Cast: 30", "Const Int 1\nCast 10"),
    ("Cast: 30 of target 256", "Const Int 1\nCast 256"),
    ("IsKind: 31 before 32", "IsKind Int @9 Int @9"),
    (
        "IsKind: 32 of the inner name",
        "Const Int 1\nIsKind Int \"\" Int @0",
    ),
];
