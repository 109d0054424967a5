//! Runs the programs that tests/program and the gate put in target/bin/ on standard streams of every sort: at once or
//! slowly, closed, full, or no stream of bytes at all.

use std::io::Write;
use std::path::{Path, PathBuf};
use std::process::{ChildStdin, Command, Stdio};
use std::time::Duration;

/// Where standard input comes from.
pub enum Input<'a> {
    Bytes(&'a [u8]),
    /// so many bytes at a time, with a pause before each piece and before the end
    Pieces(&'a [u8], usize),
    Closed,
    /// a folder, of which no read succeeds
    Folder,
}

/// Where standard output goes.
pub enum Output {
    Read,
    Closed,
    /// a device that takes nothing
    Full,
}

/// What a program wrote.
#[derive(Debug, PartialEq, Eq)]
pub struct Said {
    pub output: String,
    pub error: String,
}

const PAUSE: Duration = Duration::from_millis(4);

/// The path of a built program.
fn built(name: &str) -> PathBuf {
    let bin = Path::new(env!("CARGO_MANIFEST_DIR")).join("../../target/bin");
    let path = bin.join(name);
    assert!(
        path.is_file(),
        "{name} is not built: run `tests/program {name}`"
    );
    path
}

/// The redirections, as a shell writes them: a program of Rust cannot start another with a stream closed.
fn redirections(input: &Input, output: &Output) -> String {
    let from = match input {
        Input::Bytes(_) | Input::Pieces(..) => "",
        Input::Closed => "<&-",
        Input::Folder => "</",
    };
    let to = match output {
        Output::Read => "",
        Output::Closed => ">&-",
        Output::Full => ">/dev/full",
    };
    format!("exec \"$0\" {from} {to}")
}

/// A program that has read enough may be gone before all is written.
fn feed(mut stdin: ChildStdin, input: &Input) {
    match input {
        Input::Bytes(bytes) => {
            let _ = stdin.write_all(bytes);
        }
        Input::Pieces(bytes, size) => {
            for piece in bytes.chunks(*size) {
                std::thread::sleep(PAUSE);
                if stdin.write_all(piece).is_err() {
                    return;
                }
            }
            std::thread::sleep(PAUSE);
        }
        Input::Closed | Input::Folder => {}
    }
}

/// Runs a program. It must end with the status 0, which is all that a program in Rattle has.
pub fn run(name: &str, input: Input, output: Output) -> Said {
    let mut shell = Command::new("sh");
    let pipes = shell
        .arg("-c")
        .arg(redirections(&input, &output))
        .arg(built(name))
        .stdin(Stdio::piped())
        .stdout(Stdio::piped())
        .stderr(Stdio::piped());
    let mut child = pipes.spawn().expect("sh");
    feed(child.stdin.take().expect("piped"), &input);
    let done = child.wait_with_output().expect("it ends");
    assert!(done.status.success(), "{name}: {done:?}");
    Said {
        output: String::from_utf8(done.stdout).expect("text"),
        error: String::from_utf8(done.stderr).expect("text"),
    }
}
