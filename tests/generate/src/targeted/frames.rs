//! Frames, scopes and closures: what a call lays down, what a frame sees, and what is left when it
//! is gone.

use crate::Case;
use asm::assemble;

/// All of them.
pub fn frames() -> Vec<Case> {
    let mut cases = Vec::new();
    for (name, text) in PROGRAMS {
        let text = format!("chunk t/0\n{text}\n");
        let image = assemble(&text).unwrap_or_else(|error| panic!("{error} in\n{text}"));
        cases.push(Case::of(name, &image));
    }
    cases
}

const PROGRAMS: [(&str, &str); 65] = [
    (
        "a capture after PopScope: only what is live",
        "PushScope\nConst Int 1\nDefineLocal 0\nPushScope\nConst Int 2\nDefineLocal 1\nPopScope\nBuildClosure Function f 0\nReturn\nchunk f/0",
    ),
    (
        "BuildClosure: 44 after PopScope",
        "PushScope\nConst Int 1\nDefineLocal 0\nPushScope\nConst Int 2\nDefineLocal 1\nPopScope\nBuildClosure Function f 2\nReturn\nchunk f/0",
    ),
    (
        "a capture start at the end of the live ones",
        "PushScope\nConst Int 1\nDefineLocal 0\nBuildClosure Function f 1\nReturn\nchunk f/0",
    ),
    (
        "a closure built in a callee has the callee's slots",
        "PushScope\nConst Int 1\nDefineLocal 0\nConst Int 2\nDefineLocal 1\nConst Function f\nConst Int 3\nConst Int 4\nCall 2\nReturn\nchunk f/2\nBuildClosure Function g 1\nReturn\nchunk g/0",
    ),
    (
        "BuildClosure: 44 in a callee, its caller's slots don't count",
        "PushScope\nConst Int 1\nDefineLocal 5\nConst Function f\nConst Int 3\nCall 1\nReturn\nchunk f/1\nBuildClosure Function g 2\nReturn\nchunk g/0",
    ),
    (
        "a callee's closure called by the caller",
        "PushScope\nConst Int 1\nDefineLocal 0\nConst Function f\nConst Int 3\nCall 1\nConst Int 4\nCall 1\nReturn\nchunk f/1\nBuildClosure Function g 0\nReturn\nchunk g/1\nGetLocal 0\nGetLocal 1\nBuildTuple 2\nReturn",
    ),
    (
        "a callee's slots are gone after Return",
        "PushScope\nConst Int 1\nDefineLocal 0\nConst Function f\nCall 0\nPop\nBuildClosure Function g 0\nReturn\nchunk f/0\nConst Int 7\nDefineLocal 3\nConst Null\nReturn\nchunk g/0",
    ),
    (
        "a callee's slots are gone after an Err",
        "PushScope\nConst Int 1\nDefineLocal 0\nConst Function f\nCall 0\nPop\nBuildClosure Function g 0\nReturn\nchunk f/0\nPushScope\nConst Int 7\nDefineLocal 3\nConst Null\nErr\nPropagate\nReturn\nchunk g/0",
    ),
    (
        "a callee's slots are gone after the code's end",
        "PushScope\nConst Int 1\nDefineLocal 0\nConst Function f\nCall 0\nPop\nBuildClosure Function g 0\nReturn\nchunk f/0\nPushScope\nConst Int 7\nDefineLocal 3\nchunk g/0",
    ),
    (
        "scopes that Return leaves are closed: 36",
        "PushScope\nConst Function f\nCall 0\nPop\nPopScope\nPopScope\nchunk f/0\nPushScope\nPushScope\nConst Null\nReturn",
    ),
    (
        "scopes that an Err leaves are closed: 36",
        "PushScope\nConst Function f\nCall 0\nPop\nPopScope\nPopScope\nchunk f/0\nPushScope\nPushScope\nConst Null\nErr\nPropagate",
    ),
    (
        "scopes that the code's end leaves are closed: 36",
        "PushScope\nConst Function f\nCall 0\nPop\nPopScope\nPopScope\nchunk f/0\nPushScope\nPushScope",
    ),
    (
        "PopScope: 36 in a callee with the caller's scopes open",
        "PushScope\nPushScope\nConst Function f\nCall 0\nchunk f/0\nPushScope\nPopScope\nPopScope",
    ),
    (
        "a scope that a callee opened and left does not hide the caller's global",
        "Const Function f\nCall 0\nDefineLocal 0\nGetGlobal 0\nReturn\nchunk f/0\nPushScope\nConst Int 4\nReturn",
    ),
    (
        "a callee takes its caller's operands",
        "Const Int 1\nConst Int 2\nConst Function f\nCall 0\nBuildArr 2\nReturn\nchunk f/0\nPop\nConst Int 9\nReturn",
    ),
    (
        "a callee returns its caller's operand",
        "Const Int 1\nConst Function f\nCall 0\nReturn\nchunk f/0\nReturn",
    ),
    (
        "a callee takes more than there is: 31",
        "Const Int 1\nConst Function f\nCall 0\nReturn\nchunk f/0\nPop\nPop",
    ),
    (
        "a callee leaves operands behind",
        "Const Function f\nCall 0\nBuildArr 3\nReturn\nchunk f/0\nConst Int 1\nConst Int 2\nConst Int 3\nReturn",
    ),
    (
        "an Err leaves operands behind",
        "Const Function f\nCall 0\nBuildArr 3\nReturn\nchunk f/0\nConst Int 1\nConst Int 2\nConst Int 3\nErr\nPropagate",
    ),
    (
        "the code's end leaves operands behind",
        "Const Function f\nCall 0\nBuildArr 3\nReturn\nchunk f/0\nConst Int 1\nConst Int 2",
    ),
    (
        "an Err through three frames",
        "Const Int 8\nConst Function f\nCall 0\nBuildTuple 2\nReturn\nchunk f/0\nConst Function g\nCall 0\nPropagate\nReturn\nchunk g/0\nConst Function h\nCall 0\nPropagate\nReturn\nchunk h/0\nConst \"no\"\nErr\nReturn",
    ),
    (
        "an Ok unwrapped in each of three frames",
        "Const Function f\nCall 0\nPropagate\nReturn\nchunk f/0\nConst Function g\nCall 0\nPropagate\nReturn\nchunk g/0\nConst Int 1\nOk\nOk\nOk\nReturn",
    ),
    (
        "a global set by a callee",
        "Const Int 1\nDefineLocal 0\nConst Function f\nCall 0\nGetGlobal 0\nBuildTuple 2\nReturn\nchunk f/0\nConst Int 2\nSetGlobal 0\nReturn",
    ),
    (
        "a callee defines locals, no globals: 35",
        "Const Function f\nCall 0\nGetGlobal 0\nReturn\nchunk f/0\nConst Int 2\nDefineLocal 0\nGetLocal 0\nReturn",
    ),
    (
        "a callee's gap",
        "Const Function f\nConst Int 1\nCall 1\nReturn\nchunk f/1\nConst Int 2\nDefineLocal 3\nGetLocal 0\nGetLocal 1\nGetLocal 2\nGetLocal 3\nBuildTuple 4\nReturn",
    ),
    (
        "the arguments in their order",
        "Const Function f\nConst Int 1\nConst Int 2\nConst Int 3\nCall 3\nReturn\nchunk f/3\nGetLocal 0\nGetLocal 1\nGetLocal 2\nBuildTuple 3\nReturn",
    ),
    (
        "Nulls, captures, arguments",
        "PushScope\nConst Int 1\nDefineLocal 0\nConst Int 2\nDefineLocal 1\nConst Int 3\nDefineLocal 2\nBuildClosure Function f 1\nConst Int 4\nConst Int 5\nCall 2\nReturn\nchunk f/2\nGetLocal 0\nGetLocal 1\nGetLocal 2\nGetLocal 3\nGetLocal 4\nBuildTuple 5\nReturn",
    ),
    (
        "a closure of the bare top: Nulls and the argument",
        "BuildClosure Function f 2\nConst Int 5\nCall 1\nReturn\nchunk f/1\nGetLocal 0\nGetLocal 1\nGetLocal 2\nBuildTuple 3\nReturn",
    ),
    (
        "a closure of the top after its scope: no captures",
        "PushScope\nConst Int 1\nDefineLocal 0\nPopScope\nBuildClosure Function f 0\nReturn\nchunk f/0",
    ),
    (
        "a closure captures a closure",
        "PushScope\nConst Int 1\nDefineLocal 0\nBuildClosure Function f 0\nDefineLocal 1\nBuildClosure Function g 1\nReturn\nchunk f/0\nchunk g/0",
    ),
    (
        "a closure calls the closure it captured",
        "PushScope\nConst Int 1\nDefineLocal 0\nBuildClosure Function f 0\nDefineLocal 1\nBuildClosure Function g 1\nCall 0\nReturn\nchunk f/0\nGetLocal 0\nReturn\nchunk g/0\nGetLocal 1\nCall 0\nReturn",
    ),
    (
        "a closure captures itself as it was",
        "PushScope\nConst Int 1\nDefineLocal 0\nBuildClosure Function f 0\nSetLocal 0\nPop\nBuildClosure Function f 0\nReturn\nchunk f/0",
    ),
    (
        "a closure sets its copy",
        "PushScope\nConst Int 1\nDefineLocal 0\nBuildClosure Function f 0\nDefineLocal 1\nGetLocal 1\nCall 0\nGetLocal 1\nCall 0\nGetLocal 0\nBuildTuple 3\nReturn\nchunk f/0\nGetLocal 0\nConst Int 1\nAdd\nSetLocal 0\nReturn",
    ),
    (
        "closures that differ in their start alone",
        "BuildClosure Function f 3\nBuildClosure Function f 4\nEq\nReturn\nchunk f/0",
    ),
    (
        "closures that differ in a capture alone",
        "PushScope\nConst Int 1\nDefineLocal 0\nBuildClosure Function f 0\nConst Int 2\nSetLocal 0\nPop\nBuildClosure Function f 0\nEq\nReturn\nchunk f/0",
    ),
    (
        "a closure that captured a NaN is not equal to itself",
        "PushScope\nConst Float nan\nDefineLocal 0\nBuildClosure Function f 0\nDefineLocal 1\nGetLocal 1\nGetLocal 1\nEq\nReturn\nchunk f/0",
    ),
    (
        "an array that holds a NaN is not equal to itself",
        "PushScope\nConst SFloat nan\nBuildArr 1\nDefineLocal 0\nGetLocal 0\nGetLocal 0\nEq\nGetLocal 0\nGetLocal 0\nNotEq\nBuildTuple 2\nReturn",
    ),
    (
        "a NaN deep inside",
        "PushScope\nConst Float nan\nOk\nBuildTuple 1\nErr\nError\nDefineLocal 0\nGetLocal 0\nGetLocal 0\nEq\nReturn",
    ),
    (
        "two functions of one name and arity are equal and are not the same",
        "Const Function @1\nCall 0\nConst Function @2\nCall 0\nConst Function @1\nConst Function @2\nEq\nBuildTuple 3\nReturn\nchunk f/0\nConst Int 1\nReturn\nchunk f/0\nConst Int 2\nReturn",
    ),
    (
        "a function handed to itself",
        "Const Function f\nConst Function f\nConst Int 5\nCall 2\nReturn\nchunk f/2\nGetLocal 1\nConst Int 0\nEq\nJumpIfFalse on\nConst Int 1\nReturn\non: GetLocal 0\nGetLocal 0\nGetLocal 1\nConst Int 1\nSub\nCall 2\nGetLocal 1\nMul\nReturn",
    ),
    (
        "a function in a global",
        "Const Function f\nDefineLocal 0\nConst Int 4\nDefineLocal 1\nGetGlobal 0\nCall 0\nReturn\nchunk f/0\nGetGlobal 1\nConst Int 0\nEq\nJumpIfFalse on\nConst Int 100\nReturn\non: GetGlobal 1\nConst Int 1\nSub\nSetGlobal 1\nPop\nGetGlobal 0\nCall 0\nConst Int 1\nAdd\nReturn",
    ),
    (
        "calls in arguments",
        "Const Function f\nConst Function g\nConst Int 1\nCall 1\nConst Function g\nConst Int 2\nCall 1\nCall 2\nReturn\nchunk f/2\nGetLocal 0\nGetLocal 1\nSub\nReturn\nchunk g/1\nGetLocal 0\nConst Int 10\nMul\nReturn",
    ),
    (
        "a call with operands waiting below",
        "Const Int 1\nConst Int 2\nConst Function f\nConst Int 3\nCall 1\nBuildArr 3\nReturn\nchunk f/1\nGetLocal 0\nGetLocal 0\nAdd\nReturn",
    ),
    (
        "a callee jumps to its end",
        "Const Function f\nCall 0\nReturn\nchunk f/0\nJump end\nConst Int 1\nReturn\nend:",
    ),
    (
        "a callee jumps past its end",
        "Const Int 6\nConst Function f\nCall 0\nBuildTuple 2\nReturn\nchunk f/0\nJump 999\nConst Int 1\nReturn",
    ),
    (
        "an empty callee",
        "Const Function f\nCall 0\nReturn\nchunk f/0",
    ),
    (
        "an inner scope's slots end with it",
        "PushScope\nConst Int 1\nDefineLocal 0\nPushScope\nConst Int 2\nDefineLocal 1\nConst Int 3\nDefineLocal 0\nPopScope\nConst Int 4\nDefineLocal 2\nGetLocal 0\nGetLocal 1\nGetLocal 2\nBuildTuple 3\nReturn",
    ),
    (
        "an inner scope defines an outer slot, which ends with it",
        "PushScope\nPushScope\nConst Int 2\nDefineLocal 0\nPopScope\nConst Int 4\nDefineLocal 1\nGetLocal 0\nGetLocal 1\nBuildTuple 2\nReturn",
    ),
    (
        "scopes of the top one after another",
        "PushScope\nConst Int 1\nDefineLocal 0\nPopScope\nPushScope\nConst Int 2\nDefineLocal 1\nGetLocal 0\nGetLocal 1\nBuildTuple 2\nReturn",
    ),
    (
        "Return out of three scopes",
        "PushScope\nConst Int 1\nDefineLocal 0\nConst Function f\nCall 0\nGetLocal 0\nBuildTuple 2\nReturn\nchunk f/0\nPushScope\nPushScope\nConst Int 5\nDefineLocal 2\nPushScope\nGetLocal 2\nReturn",
    ),
    ("Loop: 33 by one", "Loop 4"),
    (
        "Loop: 33 in a callee",
        "Const Null\nPop\nConst Function f\nCall 0\nchunk f/0\nPushScope\nLoop 5",
    ),
    (
        "Loop: 33 of the greatest distance",
        "Const Bool true\nJumpIfFalse end\nLoop 65535\nend:",
    ),
    (
        "ArrSet: 39 of the index before 41",
        "BuildArr 0\nConst SInt -1\nConst Null\nArrSet",
    ),
    (
        "ArrSet: 39 of the array before 39 of the index",
        "Const Null\nConst Null\nConst Null\nArrSet",
    ),
    (
        "Index: 39 of a Closure",
        "BuildClosure Function f 0\nConst Int 0\nIndex\nReturn\nchunk f/0",
    ),
    (
        "IsKind: 32 of the name, the inner name right",
        "const n = Null\nconst s = Str \"\"\nConst n\nIsKind Int n Int s\nReturn",
    ),
    (
        "IsKind: 32 of the inner name, the name right",
        "const n = Null\nconst s = Str \"\"\nConst n\nIsKind Int s Int n\nReturn",
    ),
    (
        "every kind in one result",
        "Const Null\nConst Int -1\nConst UInt 2\nConst SInt -3\nConst SUInt 4\nConst Float -5.5\nConst SFloat 6.5\nConst Bool false\nConst \"s\"\nConst Char U+10FFFF\nConst Byte 10\nConst SByte -11\nConst BByte 12\nConst BSByte -13\nBuildArr 0\nBuildTuple 0\nConst Function f\nConst Null\nOk\nConst Null\nError\nConst Null\nErr\nBuildClosure Function f 1\nBuildTuple 21\nReturn\nchunk f/0",
    ),
    (
        "NaNs come out in the one way",
        "Const Float bits FFF8000000000001\nConst Float bits 7FF0000000000001\nConst SFloat bits FFC00001\nConst SFloat bits 7F800001\nConst Float bits 7FF8000000000000\nNegate\nBuildTuple 5\nReturn",
    ),
    (
        "zeros keep their sign",
        "Const Float -0.0\nConst Float 0.0\nNegate\nConst SFloat -0.0\nConst SFloat 0.0\nNegate\nConst Float -0.0\nConst Float 0.0\nAdd\nBuildTuple 5\nReturn",
    ),
    (
        "an array shared four times",
        "PushScope\nConst Int 1\nBuildArr 1\nDefineLocal 0\nGetLocal 0\nGetLocal 0\nBuildArr 2\nDefineLocal 1\nGetLocal 1\nGetLocal 1\nBuildTuple 2\nReturn",
    ),
    (
        "a shared array, one part set",
        "PushScope\nConst Int 1\nBuildArr 1\nDefineLocal 0\nGetLocal 0\nGetLocal 0\nBuildArr 2\nConst Int 0\nGetLocal 0\nConst Int 0\nConst Int 2\nArrSet\nArrSet\nReturn",
    ),
    (
        "an array that holds itself as it was",
        "PushScope\nConst Int 1\nConst Int 2\nBuildArr 2\nDefineLocal 0\nGetLocal 0\nConst Int 1\nGetLocal 0\nArrSet\nReturn",
    ),
    (
        "a prefix is not equal",
        "Const Int 1\nBuildArr 1\nConst Int 1\nConst Int 2\nBuildArr 2\nEq\nConst Int 1\nConst Int 2\nBuildArr 2\nConst Int 1\nBuildArr 1\nEq\nBuildTuple 2\nReturn",
    ),
];
