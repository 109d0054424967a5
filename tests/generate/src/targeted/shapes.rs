//! Values of every kind: what a kind test says of them, and which are equal.

use crate::Case;
use asm::assemble;
use image::Image;

/// Code that leaves a value, by name. Together they have every kind, some in more than one way.
const VALUES: [(&str, &str); 42] = [
    ("Null", "Const Null"),
    ("Int", "Const Int 1"),
    ("UInt", "Const UInt 1"),
    ("SInt", "Const SInt 1"),
    ("SUInt", "Const SUInt 1"),
    ("Float", "Const Float 1.0"),
    ("SFloat", "Const SFloat 1.0"),
    ("Float 0", "Const Float 0.0"),
    ("Float -0", "Const Float -0.0"),
    ("NaN", "Const Float nan"),
    ("Bool", "Const Bool true"),
    ("Str", "Const Str @2"),
    ("Str again", "Const Str @3"),
    ("Char", "Const Char 'a'"),
    ("Byte", "Const Byte 1"),
    ("SByte", "Const SByte 1"),
    ("BByte", "Const BByte 1"),
    ("BSByte", "Const BSByte 1"),
    ("Arr, empty", "BuildArr 0"),
    ("Arr", "Const Int 1\nConst Int 2\nBuildArr 2"),
    ("Arr of NaN", "Const Float nan\nBuildArr 1"),
    (
        "Arr of Arr",
        "Const Int 1\nConst Int 2\nBuildArr 2\nBuildArr 1",
    ),
    ("Tuple, empty", "BuildTuple 0"),
    ("Tuple", "Const Int 1\nConst Int 2\nBuildTuple 2"),
    ("Tuple, other", "Const Int 1\nConst UInt 2\nBuildTuple 2"),
    ("Function", "Const Function @1"),
    ("Function, same name and arity", "Const Function @2"),
    ("Function, other arity", "Const Function @3"),
    ("Function, other name", "Const Function @4"),
    ("Ok", "Const Int 1\nOk"),
    ("Ok of Null", "Const Null\nOk"),
    ("Ok of Ok of Null", "Const Null\nOk\nOk"),
    ("Ok of Ok of Int", "Const Int 1\nOk\nOk"),
    ("Ok of Arr", "BuildArr 0\nOk"),
    ("Ok of Err", "Const Int 1\nErr\nOk"),
    ("Err", "Const Int 1\nErr"),
    ("Error", "Const Int 1\nError"),
    ("Closure", "BuildClosure Function @1 1"),
    ("Closure, same name and arity", "BuildClosure Function @2 1"),
    ("Closure, other start", "BuildClosure Function @1 2"),
    ("Closure, more captured", "BuildClosure Function @1 0"),
    ("Closure, none captured", "BuildClosure Function @4 3"),
];

/// A top with three local slots, a NaN not among them, and four functions, two of one name and
/// arity.
fn image(body: &str) -> Image {
    let text = format!(
        "text \"t\"\ntext \"f\"\ntext \"s\"\ntext \"s\"\ntext \"f\"\ntext \"g\"
chunk @0/0\nPushScope\nConst Int 5\nDefineLocal 0\nConst Int 5\nDefineLocal 2\n{body}Return
chunk @1/1\nchunk @4/1\nchunk @1/2\nchunk @5/1\n"
    );
    assemble(&text).unwrap_or_else(|error| panic!("{error} in\n{text}"))
}

/// For each value, every kind test: the kind by itself, then as an Ok's inside.
pub fn kinds() -> Vec<Case> {
    let mut cases = Vec::new();
    for (name, code) in VALUES {
        let mut body = format!("{code}\nDefineLocal 3\n");
        let codes = (0..=26).chain([278, 65_535]);
        let mut tests = 0;
        for kind in codes {
            body += &format!("GetLocal 3\nIsKind {kind} \"\" 1 \"\"\n");
            tests += 1;
        }
        for inner in (0..=26).chain([278]) {
            body += &format!("GetLocal 3\nIsKind Ok \"\" {inner} \"\"\n");
            tests += 1;
        }
        body += &format!("BuildArr {tests}\n");
        cases.push(Case::of(&format!("kind tests of {name}"), &image(&body)));
    }
    cases
}

/// For each value, Eq with every one, and NotEq with itself. Closures hold the locals as they are
/// when they are built, so the values are built anew for each comparison.
pub fn equality() -> Vec<Case> {
    let mut cases = Vec::new();
    for (name, code) in VALUES {
        let mut body = String::new();
        for (_, other) in VALUES {
            body += &format!("{code}\n{other}\nEq\n");
        }
        body += &format!("{code}\nDefineLocal 3\nGetLocal 3\nGetLocal 3\nNotEq\n");
        body += &format!("BuildTuple {}\n", VALUES.len() + 1);
        cases.push(Case::of(&format!("equality with {name}"), &image(&body)));
    }
    cases
}
