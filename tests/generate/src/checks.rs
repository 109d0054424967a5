//! Images for the stack check, each rule by itself. A case's name begins with the answer that
//! document 01 gives: `pass`, or the fault's number, chunk and offset.

use crate::Case;
use asm::assemble;

/// All of them, in a fixed order.
pub fn checks() -> Vec<Case> {
    let mut cases = Vec::new();
    for (answer, name, text) in CHECKS {
        let text = format!("chunk t/0\n{text}\n");
        let image = assemble(&text).unwrap_or_else(|error| panic!("{error} in\n{text}"));
        cases.push(Case::of(&format!("{answer}: {name}"), &image));
    }
    cases.extend(rows());
    cases
}

/// Each row of the table: as many operands as the instruction needs, and one less. What follows
/// brings the height to 1 for Return, so that nothing but the need can fail the second, and nothing
/// but the change the first.
fn rows() -> Vec<Case> {
    let mut cases = Vec::new();
    for (instruction, need, change) in ROWS {
        for (answer, height) in [("pass", need), ("13 0 0", need - 1)] {
            if height < 0 {
                continue;
            }
            let after = height + change;
            let before = "Const Null\n".repeat(height as usize);
            let more = "Const Null\n".repeat((1 - after).max(0) as usize);
            let fewer = "Pop\n".repeat((after - 1).max(0) as usize);
            let text =
                format!("chunk t/0\n{before}{instruction}\n{more}{fewer}Return\nchunk f/0\n");
            let image = assemble(&text).unwrap_or_else(|error| panic!("{error} in\n{text}"));
            let name = format!("{answer}: {instruction} at height {height}");
            cases.push(Case::of(&name, &image));
        }
    }
    cases
}

/// Need and change of every instruction that goes on to the next, by document 01.
const ROWS: [(&str, i64, i64); 40] = [
    ("Const Null", 0, 1),
    ("Add", 2, -1),
    ("Sub", 2, -1),
    ("Mul", 2, -1),
    ("Div", 2, -1),
    ("Negate", 1, 0),
    ("Not", 1, 0),
    ("Eq", 2, -1),
    ("NotEq", 2, -1),
    ("Less", 2, -1),
    ("LessEq", 2, -1),
    ("Greater", 2, -1),
    ("GreaterEq", 2, -1),
    ("GetLocal 0", 0, 1),
    ("SetLocal 0", 1, 0),
    ("GetGlobal 0", 0, 1),
    ("SetGlobal 0", 1, 0),
    ("DefineLocal 0", 1, -1),
    ("Pop", 1, -1),
    ("PushScope", 0, 0),
    ("Jump 0", 0, 0),
    ("JumpIfFalse 0", 1, -1),
    ("Loop 0", 0, 0),
    ("Call 0", 1, 0),
    ("Call 2", 3, -2),
    ("Ok", 1, 0),
    ("Err", 1, 0),
    ("Error", 1, 0),
    ("BuildArr 0", 0, 1),
    ("BuildArr 1", 1, 0),
    ("BuildArr 3", 3, -2),
    ("BuildTuple 0", 0, 1),
    ("BuildTuple 1", 1, 0),
    ("BuildTuple 3", 3, -2),
    ("Index", 2, -1),
    ("ArrLen", 1, 0),
    ("ArrSet", 3, -2),
    ("BuildClosure Function f 0", 0, 1),
    ("Cast Int", 1, 0),
    ("IsKind Int", 1, 0),
];

const CHECKS: [(&str, &str, &str); 85] = [
    ("pass", "empty code", ""),
    ("pass", "a value", "Const Null\nReturn"),
    ("pass", "the end at a depth", "PushScope\nPushScope"),
    ("pass", "past the end", "Jump 60000"),
    (
        "pass",
        "the end at two depths",
        "Const Bool true\nJumpIfFalse end\nPushScope\nend:",
    ),
    (
        "pass",
        "past the end at two depths",
        "Const Bool true\nJumpIfFalse 9\nPushScope\nJump 8",
    ),
    ("pass", "Return at a depth", "PushScope\nConst Null\nReturn"),
    (
        "pass",
        "unknown bytes after Return",
        "Const Null\nReturn\nbyte FF FF",
    ),
    (
        "pass",
        "unknown bytes jumped over",
        "Jump on\nbyte FF\non: Const Null\nReturn",
    ),
    (
        "pass",
        "operands cut after Return",
        "Const Null\nReturn\nbyte 00",
    ),
    (
        "pass",
        "a missing constant after Return",
        "Const Null\nReturn\nConst @9",
    ),
    (
        "pass",
        "a Loop before 0 after Return",
        "Const Null\nReturn\nLoop 99",
    ),
    ("pass", "a loop for ever", "Loop 3"),
    (
        "pass",
        "a loop for ever after something",
        "Const Null\nPop\nagain: Loop again",
    ),
    (
        "pass",
        "a loop at a depth",
        "PushScope\nagain: PushScope\nPopScope\nLoop again",
    ),
    (
        "pass",
        "both ways to one place",
        "Const Bool true\nJumpIfFalse 0\nConst Null\nReturn",
    ),
    (
        "pass",
        "two ways with one height",
        "Const Bool true\nJumpIfFalse a\nConst Int 1\nJump b\na: Const Int 2\nb: Return",
    ),
    (
        "pass",
        "Propagate at height 1",
        "Const Null\nPropagate\nReturn",
    ),
    ("pass", "Call of 0", "Const Null\nCall 0\nReturn"),
    (
        "pass",
        "Call of 2",
        "Const Null\nConst Null\nConst Null\nCall 2\nReturn",
    ),
    ("pass", "BuildArr of 0", "BuildArr 0\nReturn"),
    (
        "pass",
        "BuildTuple of 3",
        "Const Null\nConst Null\nConst Null\nBuildTuple 3\nReturn",
    ),
    ("pass", "a local that is not live", "GetLocal 9\nReturn"),
    (
        "pass",
        "a global that is not defined",
        "GetGlobal 9\nReturn",
    ),
    ("pass", "Cast target 9", "Const Null\nCast 9\nReturn"),
    (
        "pass",
        "IsKind of any kind",
        "Const Null\nIsKind 65535 \"\" 65535 \"\"\nReturn",
    ),
    (
        "pass",
        "a closure's start is not judged",
        "BuildClosure Function f 65535\nReturn\nchunk f/0",
    ),
    (
        "pass",
        "ArrSet at height 3",
        "Const Null\nConst Null\nConst Null\nArrSet\nReturn",
    ),
    (
        "pass",
        "SetLocal keeps the height",
        "Const Null\nSetLocal 0\nReturn",
    ),
    (
        "pass",
        "a callee with arguments has height 0",
        "Const Null\nReturn\nchunk f/3\nGetLocal 0\nReturn",
    ),
    (
        "pass",
        "instructions that overlap",
        "const a = Int 1\nconst b = Int 2\nconst c = Int 3\nconst d = Int 4\nconst e = Int 5\nconst f = Bool true\nConst f\nJumpIfFalse 1\nbyte 00 00 00 05\nReturn",
    ),
    (
        "pass",
        "a jump into an operand",
        "Const Null\nJump 1\nbyte 00 13",
    ),
    ("13 0 0", "Return at height 0", "Return"),
    (
        "13 0 0",
        "Return at height 2",
        "Const Null\nConst Null\nReturn",
    ),
    ("13 0 0", "the end at height 1", "Const Null"),
    (
        "13 0 0",
        "past the end at height 1",
        "Const Null\nJump 60000",
    ),
    (
        "13 0 0",
        "JumpIfFalse past the end at height 1",
        "Const Null\nConst Bool true\nJumpIfFalse 60000\nReturn",
    ),
    ("13 0 0", "Propagate at height 0", "Propagate\nReturn"),
    (
        "13 0 0",
        "Propagate at height 2",
        "Const Null\nConst Null\nPropagate\nPop\nReturn",
    ),
    ("13 0 0", "Pop at height 0", "Pop"),
    ("13 0 0", "Add at height 1", "Const Null\nAdd\nReturn"),
    ("13 0 0", "Negate at height 0", "Negate\nReturn"),
    ("13 0 0", "SetLocal at height 0", "SetLocal 0"),
    ("13 0 0", "SetGlobal at height 0", "SetGlobal 0"),
    ("13 0 0", "DefineLocal at height 0", "DefineLocal 0"),
    ("13 0 0", "JumpIfFalse at height 0", "JumpIfFalse 0"),
    ("13 0 0", "Call 1 at height 1", "Const Null\nCall 1\nReturn"),
    ("13 0 0", "Call 0 at height 0", "Call 0\nReturn"),
    (
        "13 0 0",
        "Call of the greatest count",
        "Const Null\nCall 65535\nReturn",
    ),
    (
        "13 0 0",
        "BuildArr 2 at height 1",
        "Const Null\nBuildArr 2\nReturn",
    ),
    (
        "13 0 0",
        "BuildTuple of the greatest count",
        "Const Null\nBuildTuple 65535\nReturn",
    ),
    ("13 0 0", "Index at height 1", "Const Null\nIndex\nReturn"),
    (
        "13 0 0",
        "ArrSet at height 2",
        "Const Null\nConst Null\nArrSet\nReturn",
    ),
    ("13 0 0", "ArrLen at height 0", "ArrLen\nReturn"),
    ("13 0 0", "Cast at height 0", "Cast 0\nReturn"),
    ("13 0 0", "IsKind at height 0", "IsKind Int\nReturn"),
    ("13 0 0", "Ok at height 0", "Ok\nReturn"),
    ("13 0 0", "PopScope at depth 0", "PopScope"),
    (
        "13 0 0",
        "PopScope once too often",
        "PushScope\nPopScope\nPopScope",
    ),
    (
        "13 1 0",
        "PopScope of a callee's own scope",
        "Const Null\nReturn\nchunk f/0\nPopScope",
    ),
    (
        "13 0 0",
        "two heights at one place",
        "Const Bool true\nJumpIfFalse a\nConst Int 1\na: Const Int 2\nReturn",
    ),
    (
        "13 0 0",
        "two depths at one place",
        "Const Bool true\nJumpIfFalse a\nPushScope\na: Const Int 2\nReturn",
    ),
    (
        "13 0 0",
        "a loop that grows",
        "again: Const Null\nLoop again",
    ),
    (
        "13 0 0",
        "a loop that shrinks",
        "Const Null\nConst Null\nagain: Pop\nLoop again",
    ),
    (
        "13 0 0",
        "a loop that goes deeper",
        "again: PushScope\nLoop again",
    ),
    (
        "13 0 0",
        "offset 0 reached at height 1",
        "Const Null\nLoop 6",
    ),
    ("10 0 0", "an unknown instruction", "byte 26"),
    (
        "10 0 3",
        "an unknown instruction later",
        "Const Null\nbyte FF",
    ),
    ("10 0 3", "operands cut", "Const Null\nbyte 00 00"),
    (
        "10 0 1",
        "the last of four operands cut",
        "PushScope\nbyte 25 00 00 00 00 00 00 00",
    ),
    ("10 0 3", "Cast target 10", "Const Null\nCast 10\nReturn"),
    ("10 0 3", "Cast target 256", "Const Null\nCast 256\nReturn"),
    (
        "10 0 6",
        "the lower of two",
        "Const Bool true\nJumpIfFalse far\nbyte FF\nfar: byte FE",
    ),
    (
        "10 0 3",
        "the lower, met last",
        "Jump far\nlow: byte FF\nfar: Const Bool true\nJumpIfFalse off\nLoop low\noff: byte FE",
    ),
    (
        "10 0 1",
        "before 13: heights are not needed to reach",
        "Pop\nbyte FF",
    ),
    ("10 0 1", "before 13 at a lower offset", "Add\nbyte FF"),
    ("11 0 3", "a Loop before offset 0", "Const Null\nLoop 7"),
    ("11 0 0", "a Loop far before", "Loop 65535"),
    (
        "11 0 6",
        "11 at a lower offset than 10",
        "Const Bool true\nJumpIfFalse far\nLoop 99\nfar: byte FE",
    ),
    ("12 0 0", "a constant missing", "Const @0\nReturn"),
    (
        "12 0 3",
        "a closure of no function",
        "const n = Null\nConst n\nBuildClosure n 0\nPop\nReturn",
    ),
    (
        "12 0 3",
        "a kind test's name is no text",
        "const n = Null\nconst s = Str \"\"\nConst n\nIsKind Int n Int s\nReturn",
    ),
    (
        "12 0 3",
        "a kind test's inner name is missing",
        "const n = Null\nconst s = Str \"\"\nConst n\nIsKind Int s Int @2\nReturn",
    ),
    (
        "13 0 0",
        "13 in chunk 0 before 10 in chunk 1",
        "Return\nchunk f/0\nbyte FF",
    ),
    (
        "12 1 0",
        "a chunk that nothing calls",
        "Const Null\nReturn\nchunk f/0\nConst @0\nReturn",
    ),
];
