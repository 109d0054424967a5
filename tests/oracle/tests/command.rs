//! The command `oracle`.

use std::io::Write;
use std::process::{Command, Stdio};

/// What the command prints for an image on standard input, and its exit code.
fn oracle(arguments: &[&str], image: &str) -> (String, Option<i32>) {
    let mut process = Command::new(env!("CARGO_BIN_EXE_oracle"))
        .args(arguments)
        .stdin(Stdio::piped())
        .stdout(Stdio::piped())
        .stderr(Stdio::null())
        .spawn()
        .expect("it starts");
    let mut input = process.stdin.take().expect("piped");
    input.write_all(image.as_bytes()).expect("it reads");
    drop(input);
    let output = process.wait_with_output().expect("it ends");
    let printed = String::from_utf8(output.stdout).expect("text");
    (printed, output.status.code())
}

fn printed(line: &str) -> (String, Option<i32>) {
    (format!("{line}\n"), Some(0))
}

const WORKED: &str =
    "01746F70\n02000000\n03010000000000000002\n03010000000000000003\n040000000000010113\n05\n";

#[test]
fn lines_of_the_command() {
    let no_local = "01\n02000000\n040D0000\n05\n";
    assert_eq!(oracle(&[], WORKED), printed("value 4 010000000000000005"));
    assert_eq!(
        oracle(&[], "01\n02000000\n0406\n05\n"),
        printed("stop 31 1 0000 0000")
    );
    assert_eq!(
        oracle(&[], ""),
        printed("outside refused 6 0: it does not load")
    );
    assert_eq!(
        oracle(&[], no_local),
        printed("outside stop 34 1 0000 0000: the Rust panics at a local slot that is not live")
    );
    assert_eq!(oracle(&["--anyway"], no_local), printed("panic"));
}

#[test]
fn an_argument_that_it_does_not_know() {
    assert_eq!(oracle(&["--other"], WORKED), (String::new(), Some(2)));
}
