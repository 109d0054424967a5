//! The command `rl-asm` as a person uses it.

use std::io::Write;
use std::process::{Command, Output, Stdio};

const TEXT: &str = "chunk top/0\nConst Int 2\nConst Int 3\nAdd\nReturn\n";
const LINES: &str =
    "01746F70\n02000000\n03010000000000000002\n03010000000000000003\n040000000000010113\n05\n";

/// Runs the command with these words and this standard input.
fn run(words: &[&str], input: &str) -> Output {
    let mut command = Command::new(env!("CARGO_BIN_EXE_rl-asm"));
    let pipes = command
        .args(words)
        .stdin(Stdio::piped())
        .stdout(Stdio::piped())
        .stderr(Stdio::piped());
    let mut child = pipes.spawn().expect("it starts");
    let mut stdin = child.stdin.take().expect("piped");
    // A command that reads nothing may be gone already.
    let _ = stdin.write_all(input.as_bytes());
    drop(stdin);
    child.wait_with_output().expect("it ends")
}

fn output(words: &[&str], input: &str) -> String {
    let done = run(words, input);
    assert!(done.status.success(), "{done:?}");
    String::from_utf8(done.stdout).expect("text")
}

#[test]
fn there_and_back() {
    assert_eq!(output(&["asm"], TEXT), LINES);
    let text = output(&["dis"], LINES);
    assert_eq!(output(&["asm"], &text), LINES);
}

#[test]
fn files() {
    let path = std::env::temp_dir().join(format!("rl-asm-{}.asm", std::process::id()));
    std::fs::write(&path, TEXT).expect("written");
    let name = path.to_str().expect("a name");
    assert_eq!(output(&["asm", name], ""), LINES);
    std::fs::remove_file(&path).expect("removed");
    let done = run(&["asm", name], "");
    assert_eq!(done.status.code(), Some(1));
}

#[test]
fn errors() {
    let cases = [
        (
            &["asm"][..],
            "chunk top/0\nadd\n",
            1,
            "standard input: line 2: no instruction",
        ),
        (
            &["dis"][..],
            "06\n",
            1,
            "standard input: line 1: no line begins with 06",
        ),
        (&["asm", "a", "b"][..], "", 2, "rl-asm asm [FILE]"),
        (&[][..], "", 2, "rl-asm asm [FILE]"),
    ];
    for (words, input, code, start) in cases {
        let done = run(words, input);
        let message = String::from_utf8_lossy(&done.stderr).into_owned();
        assert_eq!(done.status.code(), Some(code), "{words:?}");
        assert!(message.starts_with(start), "{message}");
        assert!(done.stdout.is_empty());
    }
    assert!(output(&["--help"], "").contains("dis [FILE]"));
}
