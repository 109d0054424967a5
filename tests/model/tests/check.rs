//! The stack check.

use image::Constant::{Bool, Function, Int, Str};
use model::{Checked, stack_check};
use written::{Written, program};

fn judged(chunks: &[Written]) -> String {
    match stack_check(&program(chunks)) {
        Checked::Pass => "pass".to_string(),
        Checked::Fault {
            number,
            chunk,
            offset,
        } => format!("{number} {chunk} {offset}"),
    }
}

/// One chunk with an Int, a Bool, a Str and a Function to chunk 1.
fn top(code: &'static str) -> String {
    judged(&[
        (0, &[Int(1), Bool(true), Str(0), Function(1)], code),
        (0, &[], ""),
    ])
}

#[test]
fn faults_of_one_instruction() {
    for (code, expected) in [
        ("", "pass"),
        ("Byte 38", "10 0 0"),
        ("Byte 0 0", "10 0 0"),
        ("Const 0; Cast 10", "10 0 3"),
        ("Const 0; Cast 9; Return", "pass"),
        ("Const 0; Cast 256; Return", "10 0 3"),
        ("Loop 4", "11 0 0"),
        ("Loop 3", "pass"),
        ("Const 4", "12 0 0"),
        ("Const 3; Return", "pass"),
        ("BuildClosure 3 9; Return", "pass"),
        ("BuildClosure 0 0; Return", "12 0 0"),
        ("BuildClosure 4 0; Return", "12 0 0"),
        ("Const 0; IsKind 1 2 1 2; Return", "pass"),
        ("Const 0; IsKind 1 2 1 0; Return", "12 0 3"),
        ("Const 0; IsKind 1 4 1 2; Return", "12 0 3"),
    ] {
        assert_eq!(top(code), expected, "{code}");
    }
}

#[test]
fn the_lowest_fault_and_not_the_first_met() {
    // The fault at 15 is met before the one at 3, to which a Loop goes back.
    let both = "Jump 3; Const 9; Const 1; JumpIfFalse 3; Loop 12; Byte 38";
    assert_eq!(top(both), "12 0 3");
    // A faulty instruction has no successor.
    assert_eq!(top("Const 9; Byte 38"), "12 0 0");
    // What is not reachable is not judged.
    assert_eq!(top("Const 0; Return; Byte 38"), "pass");
    // 13 only where the chunk has no other fault.
    assert_eq!(top("Pop; Const 9"), "12 0 1");
    assert_eq!(top("Pop"), "13 0 0");
}

#[test]
fn heights() {
    for (code, expected) in [
        ("Const 0", "13 0 0"),
        ("Const 0; Pop", "pass"),
        ("Return", "13 0 0"),
        ("Const 0; Return", "pass"),
        ("Const 0; Const 0; Return", "13 0 0"),
        ("Const 0; Const 0; Add; Return", "pass"),
        ("Const 0; Add; Return", "13 0 0"),
        ("Const 0; Ok; Propagate; Return", "pass"),
        ("Const 0; Const 0; Propagate; Add; Return", "13 0 0"),
        ("Const 3; Const 0; Call 1; Return", "pass"),
        ("Const 0; Call 1; Return", "13 0 0"),
        ("Const 0; SetGlobal 0; Return", "pass"),
        ("SetLocal 0", "13 0 0"),
        ("Const 0; Const 0; Const 0; BuildArr 3; Return", "pass"),
        ("BuildTuple 0; Return", "pass"),
        ("Const 0; BuildTuple 2; Return", "13 0 0"),
        ("Const 0; Const 0; Const 0; ArrSet; Return", "pass"),
        ("Const 0; Const 0; ArrSet; Return", "13 0 0"),
        ("Jump 65535", "pass"),
        ("Const 0; Jump 0", "13 0 0"),
        ("Const 1; JumpIfFalse 0", "pass"),
        ("Const 1; JumpIfFalse 3; Const 0; Return", "13 0 0"),
        (
            "Const 1; JumpIfFalse 4; Const 0; Return; Const 0; Return",
            "pass",
        ),
        ("Const 0; Loop 6", "13 0 0"),
        ("Const 0; Pop; Loop 7", "pass"),
    ] {
        assert_eq!(top(code), expected, "{code}");
    }
}

#[test]
fn depths() {
    for (code, expected) in [
        ("PopScope", "13 0 0"),
        ("PushScope; PopScope", "pass"),
        ("PushScope", "pass"),
        ("PushScope; Loop 4", "13 0 0"),
        ("PushScope; PopScope; Loop 5", "pass"),
        // At the end the depths may differ: one way has opened a scope, the other has not.
        ("Const 1; JumpIfFalse 1; PushScope", "pass"),
        (
            "Const 1; JumpIfFalse 1; PushScope; PushScope; PopScope",
            "13 0 0",
        ),
    ] {
        assert_eq!(top(code), expected, "{code}");
    }
}

#[test]
fn chunks() {
    // Every chunk is judged, also one that nothing calls, and the lowest decides.
    assert_eq!(judged(&[(0, &[], ""), (0, &[], "Pop")]), "13 1 0");
    assert_eq!(judged(&[(0, &[], "Pop"), (0, &[], "Byte 38")]), "13 0 0");
    // A Function constant is none above the last chunk, so none can stand there.
    assert_eq!(
        judged(&[
            (0, &[Function(1)], ""),
            (0, &[Function(2)], "BuildClosure 0 0; Return"),
            (0, &[], "Byte 99")
        ]),
        "10 2 0"
    );
}

#[test]
fn instructions_may_overlap() {
    // The Loop goes into its own operand, which is an Add.
    assert_eq!(top("Const 0; Const 0; Loop 1; Return"), "pass");
    // Const 19 is missing, whether or not the Return inside it can be reached.
    assert_eq!(top("Jump 2; Const 19"), "13 0 0");
}
