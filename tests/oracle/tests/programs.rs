//! Small programs with the answers of the published machine.

use image::Constant::{
    BByte, Bool, Byte, Char, Float, Function, Int, Null, SByte, SFloat, SInt, Str, UInt,
};
use written::{Written, bytes};

/// What it shows, its chunks, the oracle's line.
type Program = (&'static str, &'static [Written], &'static str);

const PROGRAMS: &[Program] = &[
    (
        "two Int added",
        &[(0, &[Int(2), Int(3)], "Const 0; Const 1; Add; Return")],
        "value 4 010000000000000005",
    ),
    ("nothing at all", &[(0, &[], "")], "value 0 00"),
    (
        "Return on an empty stack",
        &[(0, &[], "Return")],
        "value 1 00",
    ),
    (
        "the end of the code gives Null, whatever is left",
        &[(0, &[Int(7)], "Const 0")],
        "value 1 00",
    ),
    (
        "Int max + 1",
        &[(0, &[Int(i64::MAX), Int(1)], "Const 0; Const 1; Add; Return")],
        "stop 37 3 0000 0006",
    ),
    (
        "Int min / 0",
        &[(0, &[Int(i64::MIN), Int(0)], "Const 0; Const 1; Div; Return")],
        "stop 38 3 0000 0006",
    ),
    (
        "Int min / -1",
        &[(
            0,
            &[Int(i64::MIN), Int(-1)],
            "Const 0; Const 1; Div; Return",
        )],
        "stop 37 3 0000 0006",
    ),
    (
        "a division truncates",
        &[(0, &[Int(-7), Int(2)], "Const 0; Const 1; Div; Return")],
        "value 4 01FFFFFFFFFFFFFFFD",
    ),
    (
        "Negate SByte -127",
        &[(0, &[SByte(-127)], "Const 0; Negate; Return")],
        "value 3 0B7F",
    ),
    (
        "Negate a Byte",
        &[(0, &[Byte(1)], "Const 0; Negate; Return")],
        "stop 39 2 0000 0003",
    ),
    (
        "Negate 0.0",
        &[(0, &[Float(0)], "Const 0; Negate; Return")],
        "value 3 058000000000000000",
    ),
    (
        "Float 10^19 to Int",
        &[(
            0,
            &[Float(0x43E1_58E4_6091_3D00)],
            "Const 0; Cast 0; Return",
        )],
        "value 3 018AC7230489E80000",
    ),
    (
        "NaN to Int",
        &[(
            0,
            &[Float(0x7FF0_0000_0000_0001)],
            "Const 0; Cast 0; Return",
        )],
        "value 3 010000000000000000",
    ),
    (
        "Float 2^127 to Int",
        &[(
            0,
            &[Float(0x47E0_0000_0000_0000)],
            "Const 0; Cast 0; Return",
        )],
        "value 3 01FFFFFFFFFFFFFFFF",
    ),
    (
        "+infinity to Int",
        &[(
            0,
            &[Float(0x7FF0_0000_0000_0000)],
            "Const 0; Cast 0; Return",
        )],
        "value 3 01FFFFFFFFFFFFFFFF",
    ),
    (
        "-infinity to Int",
        &[(
            0,
            &[Float(0xFFF0_0000_0000_0000)],
            "Const 0; Cast 0; Return",
        )],
        "value 3 010000000000000000",
    ),
    (
        "Float -0.5 to UInt",
        &[(
            0,
            &[Float(0xBFE0_0000_0000_0000)],
            "Const 0; Cast 2; Return",
        )],
        "value 3 020000000000000000",
    ),
    (
        "Int 255 to Byte",
        &[(0, &[Int(255)], "Const 0; Cast 8; Return")],
        "value 3 0AFF",
    ),
    (
        "Int 256 to Byte",
        &[(0, &[Int(256)], "Const 0; Cast 8; Return")],
        "stop 42 2 0000 0003",
    ),
    (
        "Int 1152921573326323713 to SFloat, two roundings",
        &[(0, &[Int(1152921573326323713)], "Const 0; Cast 3; Return")],
        "value 3 065D800000",
    ),
    (
        "a UInt to the target 10",
        &[(0, &[UInt(1)], "Const 0; Cast 10; Return")],
        "stop 30 2 0000 0003",
    ),
    (
        "a Bool has no cast",
        &[(0, &[Bool(true)], "Const 0; Cast 0; Return")],
        "stop 42 2 0000 0003",
    ),
    (
        "cast target 10",
        &[(0, &[Int(1)], "Const 0; Cast 10; Return")],
        "stop 30 2 0000 0003",
    ),
    (
        "cast target 256 is no target 0",
        &[(0, &[Int(1)], "Const 0; Cast 256; Return")],
        "stop 30 2 0000 0003",
    ),
    (
        "a cast takes its operand before it looks at the target",
        &[(0, &[], "Cast 10")],
        "stop 31 1 0000 0000",
    ),
    (
        "a NaN is coded in the one way",
        &[(0, &[SFloat(0xFF800001)], "Const 0; Return")],
        "value 2 067FC00000",
    ),
    (
        "a Float NaN is coded in the one way",
        &[(0, &[Float(0xFFF0_0000_0000_0001)], "Const 0; Return")],
        "value 2 057FF8000000000000",
    ),
    (
        "0.0 equals -0.0",
        &[(
            0,
            &[Float(0), Float(0x8000_0000_0000_0000)],
            "Const 0; Const 1; Eq; Return",
        )],
        "value 4 0701",
    ),
    (
        "a NaN does not equal itself, nor an array that holds it",
        &[(
            0,
            &[Float(0x7FF8_0000_0000_0000)],
            "PushScope; Const 0; BuildArr 1; DefineLocal 0; GetLocal 0; GetLocal 0; Eq; Return",
        )],
        "value 8 0700",
    ),
    (
        "Int 1 and UInt 1 are not equal",
        &[(0, &[Int(1), UInt(1)], "Const 0; Const 1; NotEq; Return")],
        "value 4 0701",
    ),
    (
        "texts are equal by their bytes",
        &[(0, &[Str(0), Str(3)], "Const 0; Const 1; Eq; Return")],
        "value 4 0701",
    ),
    (
        "a result names the text that the value came with",
        &[(0, &[Str(3)], "Const 0; Return")],
        "value 2 080003",
    ),
    (
        "functions are equal by name and arity",
        &[
            (
                0,
                &[Function(1), Function(5)],
                "Const 0; Const 1; Eq; Return",
            ),
            (0, &[], ""),
            (0, &[], ""),
            (0, &[], ""),
            (0, &[], ""),
            (0, &[], "Return"),
        ],
        "value 4 0701",
    ),
    (
        "a result names the chunk that the function came with",
        &[
            (0, &[Function(2)], "Const 0; Return"),
            (0, &[], ""),
            (1, &[], ""),
        ],
        "value 2 140002",
    ),
    (
        "comparison with a NaN",
        &[(
            0,
            &[Float(0x7FF8_0000_0000_0000), Float(0)],
            "Const 0; Const 1; Less; Return",
        )],
        "stop 40 3 0000 0006",
    ),
    (
        "comparison of two kinds",
        &[(0, &[Int(1), Byte(1)], "Const 0; Const 1; Less; Return")],
        "stop 39 3 0000 0006",
    ),
    (
        "comparison of two Bool",
        &[(
            0,
            &[Bool(false), Bool(true)],
            "Const 0; Const 1; LessEq; Return",
        )],
        "stop 39 3 0000 0006",
    ),
    (
        "GreaterEq",
        &[(
            0,
            &[BByte(65535), BByte(65535)],
            "Const 0; Const 1; GreaterEq; Return",
        )],
        "value 4 0701",
    ),
    (
        "Not",
        &[(0, &[Bool(false)], "Const 0; Not; Return")],
        "value 3 0701",
    ),
    (
        "Not of an Int",
        &[(0, &[Int(0)], "Const 0; Not; Return")],
        "stop 39 2 0000 0003",
    ),
    (
        "Not with no operand",
        &[(0, &[], "Not")],
        "stop 31 1 0000 0000",
    ),
    (
        "a global by DefineLocal at the top",
        &[(0, &[Int(5)], "Const 0; DefineLocal 2; GetGlobal 1; Return")],
        "value 4 00",
    ),
    (
        "the global beside the gap",
        &[(0, &[Int(5)], "Const 0; DefineLocal 2; GetGlobal 2; Return")],
        "value 4 010000000000000005",
    ),
    (
        "a global that is not defined",
        &[(0, &[Int(5)], "Const 0; DefineLocal 2; GetGlobal 3; Return")],
        "stop 35 3 0000 0006",
    ),
    (
        "SetGlobal leaves its operand",
        &[(
            0,
            &[Int(5), Int(6)],
            "Const 0; DefineLocal 0; Const 1; SetGlobal 0; Pop; GetGlobal 0; Return",
        )],
        "value 7 010000000000000006",
    ),
    (
        "SetGlobal of one that is not defined",
        &[(0, &[Int(5)], "Const 0; SetGlobal 0")],
        "stop 35 2 0000 0003",
    ),
    (
        "SetGlobal with no operand comes before that",
        &[(0, &[], "SetGlobal 0")],
        "stop 31 1 0000 0000",
    ),
    (
        "SetLocal with no operand comes before the slot",
        &[(0, &[], "SetLocal 0")],
        "stop 31 1 0000 0000",
    ),
    (
        "an inner scope defines a slot of the outer one, and PopScope cuts it",
        &[(
            0,
            &[Int(5)],
            "PushScope; PushScope; Const 0; DefineLocal 0; GetLocal 0; PopScope; PopScope; Return",
        )],
        "value 8 010000000000000005",
    ),
    (
        "PopScope at the top with none open",
        &[(0, &[], "PopScope")],
        "stop 36 1 0000 0000",
    ),
    (
        "PopScope of a called frame's own scope",
        &[
            (0, &[Function(1)], "Const 0; Call 0; Return"),
            (0, &[], "PopScope; Return"),
        ],
        "stop 36 3 0001 0000",
    ),
    (
        "a call with arguments, first in slot 0",
        &[
            (
                0,
                &[Function(1), Int(9), Int(4)],
                "Const 0; Const 1; Const 2; Call 2; Return",
            ),
            (2, &[], "GetLocal 0; GetLocal 1; Sub; Return"),
        ],
        "value 9 010000000000000005",
    ),
    (
        "a callee that runs off its end gives Null",
        &[
            (0, &[Function(1)], "Const 0; Call 0; Return"),
            (0, &[Int(1)], "Const 0; DefineLocal 0"),
        ],
        "value 5 00",
    ),
    (
        "too many arguments",
        &[
            (
                0,
                &[Function(1), Int(1)],
                "Const 0; Const 1; Call 1; Return",
            ),
            (0, &[], "Return"),
        ],
        "stop 43 3 0000 0006",
    ),
    (
        "a closure with the wrong number of arguments",
        &[
            (0, &[Function(1)], "BuildClosure 0 0; Call 0; Return"),
            (1, &[], "Return"),
        ],
        "stop 43 2 0000 0005",
    ),
    (
        "calling an Int",
        &[(0, &[Int(1)], "Const 0; Call 0")],
        "stop 39 2 0000 0003",
    ),
    (
        "a closure captures from its start on",
        &[
            (
                0,
                &[Int(1), Int(2), Int(3), Function(1)],
                "PushScope; Const 0; DefineLocal 0; Const 1; DefineLocal 1; Const 2; DefineLocal 2; BuildClosure 3 1; Return",
            ),
            (0, &[], ""),
        ],
        "value 9 19000100010002010000000000000002010000000000000003",
    ),
    (
        "a called closure has its captures in their slots, then its arguments",
        &[
            (
                0,
                &[Int(1), Int(2), Int(3), Function(1)],
                "PushScope; Const 0; DefineLocal 0; Const 1; DefineLocal 1; BuildClosure 3 1; Const 2; Call 1; Return",
            ),
            (
                1,
                &[],
                "GetLocal 0; GetLocal 1; GetLocal 2; BuildTuple 3; Return",
            ),
        ],
        "value 14 11000300010000000000000002010000000000000003",
    ),
    (
        "a capture start past the live locals",
        &[
            (0, &[Function(1)], "PushScope; BuildClosure 0 1"),
            (0, &[], ""),
        ],
        "stop 44 2 0000 0001",
    ),
    (
        "at the top with no scope open the start is not judged",
        &[
            (0, &[Function(1)], "BuildClosure 0 7; Return"),
            (0, &[], ""),
        ],
        "value 2 19000100070000",
    ),
    (
        "calling such a closure lays down Nulls",
        &[
            (0, &[Function(1)], "BuildClosure 0 7; Call 0; Return"),
            (0, &[], "GetLocal 6; Return"),
        ],
        "value 5 00",
    ),
    (
        "closures are equal by function, captures and start",
        &[
            (
                0,
                &[Function(1)],
                "BuildClosure 0 7; BuildClosure 0 7; Eq; Return",
            ),
            (0, &[], ""),
        ],
        "value 4 0701",
    ),
    (
        "closures with other starts are not",
        &[
            (
                0,
                &[Function(1)],
                "BuildClosure 0 7; BuildClosure 0 8; Eq; Return",
            ),
            (0, &[], ""),
        ],
        "value 4 0700",
    ),
    (
        "BuildClosure of an Int",
        &[(0, &[Int(1)], "BuildClosure 0 0")],
        "stop 32 1 0000 0000",
    ),
    (
        "Propagate unwraps an Ok",
        &[(0, &[Int(1)], "Const 0; Ok; Propagate; Return")],
        "value 4 010000000000000001",
    ),
    (
        "Propagate returns an Err from the frame",
        &[
            (0, &[Function(1), Int(8)], "Const 0; Call 0; Err; Return"),
            (
                0,
                &[Int(1), Int(2)],
                "Const 0; Err; Propagate; Const 1; Return",
            ),
        ],
        "value 7 1818010000000000000001",
    ),
    (
        "Propagate of an Err through three frames",
        &[
            (
                0,
                &[Function(1)],
                "Const 0; Call 0; Propagate; Pop; Const 0; Return",
            ),
            (0, &[Function(2)], "Const 0; Call 0; Propagate; Pop"),
            (0, &[Int(3)], "Const 0; Err; Propagate; Pop"),
        ],
        "value 9 18010000000000000003",
    ),
    (
        "Propagate passes an Error",
        &[(0, &[Int(1)], "Const 0; Error; Propagate; Return")],
        "value 4 17010000000000000001",
    ),
    (
        "Propagate with no operand",
        &[(0, &[], "Propagate")],
        "stop 31 1 0000 0000",
    ),
    (
        "an array and its second element",
        &[(
            0,
            &[Int(1), Str(1)],
            "Const 0; Const 1; BuildArr 2; Const 0; Index; Return",
        )],
        "value 6 080001",
    ),
    (
        "Index takes a Tuple, and a UInt",
        &[(
            0,
            &[Int(1), UInt(0)],
            "Const 0; BuildTuple 1; Const 1; Index; Return",
        )],
        "value 5 010000000000000001",
    ),
    (
        "Index with an SInt",
        &[(
            0,
            &[Int(1), SInt(0)],
            "Const 0; BuildTuple 1; Const 1; Index; Return",
        )],
        "stop 39 4 0000 0009",
    ),
    (
        "Index into an Int comes before the index's kind",
        &[(0, &[Int(1), Bool(true)], "Const 0; Const 1; Index")],
        "stop 39 3 0000 0006",
    ),
    (
        "Index below 0",
        &[(0, &[Int(-1)], "Const 0; BuildArr 1; Const 0; Index")],
        "stop 41 4 0000 0009",
    ),
    (
        "Index at the length",
        &[(0, &[Byte(1)], "Const 0; BuildArr 1; Const 0; Index")],
        "stop 41 4 0000 0009",
    ),
    (
        "Index with one operand",
        &[(0, &[Int(0)], "Const 0; Index")],
        "stop 31 2 0000 0003",
    ),
    (
        "BuildArr with too few operands",
        &[(0, &[Int(0)], "Const 0; BuildArr 2")],
        "stop 31 2 0000 0003",
    ),
    (
        "an empty array",
        &[(0, &[], "BuildArr 0; Return")],
        "value 2 0E0000",
    ),
    (
        "ArrLen",
        &[(0, &[Int(0)], "Const 0; Const 0; BuildArr 2; ArrLen; Return")],
        "value 5 010000000000000002",
    ),
    (
        "ArrLen of a Tuple",
        &[(0, &[], "BuildTuple 0; ArrLen; Return")],
        "stop 39 2 0000 0003",
    ),
    (
        "ArrSet gives a new array",
        &[(
            0,
            &[Int(0), Char(0x1F600)],
            "PushScope; Const 0; Const 0; BuildArr 2; DefineLocal 0; GetLocal 0; Const 0; Const 1; ArrSet; GetLocal 0; BuildTuple 2; Return",
        )],
        "value 12 1100020E0002090001F6000100000000000000000E0002010000000000000000010000000000000000",
    ),
    (
        "ArrSet on a Tuple",
        &[(
            0,
            &[Int(0)],
            "Const 0; BuildTuple 1; Const 0; Const 0; ArrSet",
        )],
        "stop 39 5 0000 0012",
    ),
    (
        "ArrSet at the length",
        &[(
            0,
            &[Int(0), Byte(1)],
            "Const 0; BuildArr 1; Const 1; Const 0; ArrSet",
        )],
        "stop 41 5 0000 0012",
    ),
    (
        "a kind test",
        &[(0, &[SFloat(0), Str(2)], "Const 0; IsKind 6 1 0 1; Return")],
        "value 3 0701",
    ),
    (
        "22 tests the inside of an Ok",
        &[(0, &[Int(0), Str(2)], "Const 0; Ok; IsKind 22 1 1 1; Return")],
        "value 4 0701",
    ),
    (
        "22 inside 22 tests for Null",
        &[(
            0,
            &[Null, Str(2)],
            "Const 0; Ok; Ok; IsKind 22 1 22 1; Return",
        )],
        "value 5 0701",
    ),
    (
        "22 inside 22 of an Int",
        &[(
            0,
            &[Int(1), Str(2)],
            "Const 0; Ok; Ok; IsKind 22 1 22 1; Return",
        )],
        "value 5 0700",
    ),
    (
        "no code matches an Err",
        &[(
            0,
            &[Int(0), Str(2)],
            "Const 0; Err; IsKind 24 1 0 1; Return",
        )],
        "value 4 0700",
    ),
    (
        "20 holds for a Closure",
        &[
            (
                0,
                &[Function(1), Str(2)],
                "BuildClosure 0 0; IsKind 20 1 0 1; Return",
            ),
            (0, &[], ""),
        ],
        "value 3 0701",
    ),
    (
        "kind 278 is not kind 22",
        &[(0, &[Null, Str(2)], "Const 0; Ok; IsKind 278 1 0 1; Return")],
        "value 4 0700",
    ),
    (
        "the first name is no Str, the second is missing",
        &[(0, &[Int(0)], "Const 0; IsKind 1 0 1 9")],
        "stop 32 2 0000 0003",
    ),
    (
        "a kind test takes its operand before it looks at the names",
        &[(0, &[], "IsKind 1 0 1 9")],
        "stop 31 1 0000 0000",
    ),
    (
        "Jump to the end and past it",
        &[(0, &[Int(0)], "Const 0; Jump 500; Return")],
        "value 2 00",
    ),
    (
        "JumpIfFalse of an Int",
        &[(0, &[Int(0)], "Const 0; JumpIfFalse 0")],
        "stop 39 2 0000 0003",
    ),
    (
        "a loop that counts to ten",
        &[(
            0,
            &[Int(0), Int(1), Int(10)],
            "Const 0; DefineLocal 0; GetGlobal 0; Const 2; Less; JumpIfFalse 14; GetGlobal 0; Const 1; Add; SetGlobal 0; Pop; Loop 24; GetGlobal 0; Return",
        )],
        "value 108 01000000000000000A",
    ),
    (
        "recursion by way of a global: 5 + 4 + .. + 0",
        &[
            (
                0,
                &[Function(1), Int(5)],
                "Const 0; DefineLocal 0; GetGlobal 0; Const 1; Call 1; Return",
            ),
            (
                1,
                &[Int(0), Int(1)],
                "GetLocal 0; Const 0; Eq; JumpIfFalse 4; Const 0; Return; GetLocal 0; GetGlobal 0; GetLocal 0; Const 1; Sub; Call 1; Add; Return",
            ),
        ],
        "value 72 01000000000000000F",
    ),
    (
        "a callee takes its caller's operand",
        &[
            (
                0,
                &[Function(1), Int(7)],
                "Const 1; Const 0; Call 0; Return",
            ),
            (0, &[], "Ok; Return"),
        ],
        "value 6 16010000000000000007",
    ),
    (
        "what a frame leaves behind stays",
        &[
            (0, &[Function(1)], "Const 0; Call 0; Pop; Return"),
            (0, &[Int(1), Int(2)], "Const 0; Const 1; Return"),
        ],
        "value 7 010000000000000001",
    ),
    (
        "instructions that overlap: a Loop into the operand of a Const that was run before",
        &[(
            0,
            &[
                Bool(true),
                Null,
                Null,
                Null,
                Null,
                Null,
                Null,
                Null,
                Null,
                Null,
                Null,
                Null,
                Null,
                Null,
                Null,
                Null,
                Null,
                Null,
                Null,
                Int(4),
            ],
            "Const 0; JumpIfFalse 2; Const 19; Loop 4",
        )],
        "value 5 010000000000000004",
    ),
    (
        "instructions that overlap: a Loop into its own operand, which is an Add",
        &[(0, &[Int(4), Int(5)], "Const 0; Const 1; Loop 1; Return")],
        "value 5 010000000000000009",
    ),
];

#[test]
fn programs() {
    let images: Vec<Vec<u8>> = PROGRAMS
        .iter()
        .map(|(_, chunks, _)| bytes(chunks))
        .collect();
    let lines = oracle::answers(&images);
    for ((name, _, expected), line) in PROGRAMS.iter().zip(&lines) {
        assert_eq!(line, expected, "{name}");
    }
}
