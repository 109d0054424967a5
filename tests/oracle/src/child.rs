//! The process in which the published machine runs: it reads images, each after its length in four
//! bytes, and writes one line for each. If it dies or takes too long, the image it was at is settled
//! so, and another process goes on with the rest.

use published::{Ending, Outcome};
use std::io::{self, BufRead, BufReader, BufWriter, Read, Write};
use std::panic::{self, AssertUnwindSafe};
use std::path::PathBuf;
use std::process::{Child, ChildStdin, Command, Stdio};
use std::sync::atomic::{AtomicBool, Ordering};
use std::sync::mpsc::{self, Receiver};
use std::time::Duration;
use std::{env, process, thread};

/// What makes a command the process that runs the published machine.
const ARGUMENT: &str = "--published-machine";
/// How long one image may take. A run inside the domain has a million instructions at most.
const LIMIT: Duration = Duration::from_secs(20);

/// What came back for an image.
pub(crate) enum Reply {
    Line(String),
    Died,
    Late,
}

static SERVES: AtomicBool = AtomicBool::new(false);

/// To be called first by every command that asks the oracle: when the command was started as the
/// process that runs the published machine, this does so and does not return.
pub fn serve_if_child() {
    if env::args().nth(1).as_deref() != Some(ARGUMENT) {
        SERVES.store(true, Ordering::Relaxed);
        return;
    }
    panic::set_hook(Box::new(|_| {}));
    let served = serve(&mut io::stdin().lock(), &mut io::stdout().lock());
    process::exit(if served.is_ok() { 0 } else { 1 });
}

fn serve(input: &mut impl Read, output: &mut impl Write) -> io::Result<()> {
    let mut input = BufReader::new(input);
    let mut length = [0; 4];
    while input.read_exact(&mut length).is_ok() {
        let mut image = vec![0; u32::from_be_bytes(length) as usize];
        input.read_exact(&mut image)?;
        let line = panic::catch_unwind(AssertUnwindSafe(|| reply_to(&image)));
        let line = line.unwrap_or_else(|_| "panic".to_string());
        writeln!(output, "{line}")?;
        output.flush()?;
    }
    Ok(())
}

fn reply_to(bytes: &[u8]) -> String {
    let image = match model::load(bytes) {
        Ok(image) => image,
        Err(refusal) => return refusal.to_string(),
    };
    let Outcome { ending, count } = published::run(&image);
    match ending {
        Ending::Value(bytes) => model::Answer::Value { count, bytes }.to_string(),
        Ending::TooLong => format!("a result too long after {count}"),
        Ending::Stop {
            number,
            chunk,
            offset,
        } => model::Answer::Stop {
            number,
            count,
            chunk: chunk.into(),
            offset: offset.into(),
        }
        .to_string(),
        Ending::Asserted(message) => format!("assertion: {message}"),
        Ending::Endless => format!("no end after {count}"),
        Ending::Unmapped(message) => format!("a message without number: {message:?}"),
    }
}

/// A reply for each image.
pub(crate) fn ask(images: &[&[u8]]) -> Vec<Reply> {
    let mut replies = Vec::with_capacity(images.len());
    while replies.len() < images.len() {
        ask_one_process(&images[replies.len()..], &mut replies);
    }
    replies
}

/// Asks a new process until all are answered, or until it fails at one, which is settled then.
fn ask_one_process(images: &[&[u8]], replies: &mut Vec<Reply>) {
    let (mut process, input, lines) = start();
    thread::scope(|scope| {
        scope.spawn(move || write_all(input, images));
        for _ in images {
            match lines.recv_timeout(LIMIT) {
                Ok(line) => replies.push(Reply::Line(line)),
                Err(mpsc::RecvTimeoutError::Timeout) => {
                    replies.push(Reply::Late);
                    break;
                }
                Err(mpsc::RecvTimeoutError::Disconnected) => {
                    replies.push(Reply::Died);
                    break;
                }
            }
        }
        // Ends a process that hangs, and with it the writing; one that is done has ended by itself.
        let _ = process.kill();
    });
    let _ = process.wait();
}

/// A process that has died takes no more images: what could not be written is asked of the next.
fn write_all(input: ChildStdin, images: &[&[u8]]) {
    let mut input = BufWriter::new(input);
    for image in images {
        let length = (image.len() as u32).to_be_bytes();
        if input.write_all(&length).is_err() || input.write_all(image).is_err() {
            return;
        }
    }
    let _ = input.flush();
}

fn start() -> (Child, ChildStdin, Receiver<String>) {
    let command = command();
    let mut process = Command::new(&command)
        .arg(ARGUMENT)
        .stdin(Stdio::piped())
        .stdout(Stdio::piped())
        .stderr(Stdio::null())
        .spawn()
        .unwrap_or_else(|error| panic!("{} does not start: {error}", command.display()));
    let input = process.stdin.take().expect("piped");
    let output = process.stdout.take().expect("piped");
    let (sender, lines) = mpsc::channel();
    thread::spawn(move || {
        for line in BufReader::new(output).lines().map_while(Result::ok) {
            if sender.send(line).is_err() {
                return;
            }
        }
    });
    (process, input, lines)
}

/// The command to start: this one, if it serves, else the command `oracle` beside it.
fn command() -> PathBuf {
    let this = env::current_exe().expect("a running command has a path");
    if SERVES.load(Ordering::Relaxed) {
        return this;
    }
    let name = format!("oracle{}", env::consts::EXE_SUFFIX);
    let found = this.ancestors().skip(1).take(2).map(|dir| dir.join(&name));
    let found = found.into_iter().find(|path| path.is_file());
    found.expect("the command oracle is not built: cargo build -p oracle")
}
