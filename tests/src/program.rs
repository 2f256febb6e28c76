//! Runs the programs that `rt` built. They are x86-64 Linux programs for the machine's own loader.

use std::ffi::OsStr;
use std::fs::File;
use std::io::{ErrorKind, Write};
use std::os::unix::ffi::OsStrExt;
use std::path::PathBuf;
use std::process::{Child, Command, ExitStatus, Stdio};
use std::thread;
use std::time::{Duration, Instant};

/// A program that runs longer is taken to loop.
const LIMIT: Duration = Duration::from_secs(120);

fn path(name: &str) -> PathBuf {
    let path = PathBuf::from(concat!(env!("CARGO_MANIFEST_DIR"), "/../target/bin")).join(name);
    assert!(path.exists(), "target/bin/{name} is missing: `make outside` builds it");
    path
}

fn spawn(name: &str, command: &mut Command) -> Child {
    command.spawn().unwrap_or_else(|e| panic!("target/bin/{name} does not start: {e}"))
}

fn start(name: &str, stdin: Stdio, stdout: Stdio) -> Child {
    spawn(name, Command::new(path(name)).stdin(stdin).stdout(stdout))
}

/// What the program writes before it ends by itself with status 0.
fn output(name: &str, child: Child) -> Vec<u8> {
    let output = child.wait_with_output().expect("a child can be waited for");
    assert!(output.status.success(), "{name} ended with {}", output.status);
    output.stdout
}

/// Waits for a program whose output, if it goes to a pipe, fits in one; a program that loops is killed.
fn ended(name: &str, child: &mut Child) -> ExitStatus {
    let start = Instant::now();
    loop {
        if let Some(status) = child.try_wait().expect("a child can be waited for") {
            return status;
        }
        if start.elapsed() > LIMIT {
            child.kill().expect("a child can be killed");
            panic!("{name} does not end");
        }
        thread::sleep(Duration::from_millis(5));
    }
}

/// Hands a program its input in pieces, with a pause after each so that it is read before the next arrives, while `end` waits for it.
fn fed<'a, T>(mut child: Child, pieces: impl Iterator<Item = &'a [u8]> + Send, pause: Duration, end: impl FnOnce(Child) -> T) -> T {
    let mut stdin = child.stdin.take().expect("standard input is piped");
    thread::scope(|scope| {
        scope.spawn(move || {
            for piece in pieces {
                match stdin.write_all(piece) {
                    // a program may end before it has read all of its input
                    Err(e) if e.kind() == ErrorKind::BrokenPipe => return,
                    other => other.expect("a pipe takes the input"),
                }
                thread::sleep(pause);
            }
        });
        end(child)
    })
}

/// Runs the program on input that comes through a pipe in pieces.
pub fn run_pieces<'a>(name: &str, pieces: impl Iterator<Item = &'a [u8]> + Send, pause: Duration) -> Vec<u8> {
    fed(start(name, Stdio::piped(), Stdio::piped()), pieces, pause, |child| output(name, child))
}

pub fn run(name: &str, input: &[u8]) -> Vec<u8> {
    run_pieces(name, [input].into_iter(), Duration::ZERO)
}

/// Runs the program with a file as standard input.
pub fn run_on_file(name: &str, file: File) -> Vec<u8> {
    let mut child = start(name, file.into(), Stdio::piped());
    ended(name, &mut child);
    output(name, child)
}

/// How a program ended, and what it wrote to pipes, in which it fits.
pub struct Ending {
    pub status: ExitStatus,
    pub output: Vec<u8>,
    pub errors: String,
}

fn ending(name: &str, mut child: Child) -> Ending {
    let status = ended(name, &mut child);
    let output = child.wait_with_output().expect("a child can be waited for");
    Ending { status, output: output.stdout, errors: String::from_utf8(output.stderr).expect("text") }
}

/// Where a program's input comes from.
pub enum Input<'a> {
    /// A pipe, in pieces, with a pause after each.
    Pieces(Vec<&'a [u8]>, Duration),
    File(File),
    /// Standard input is not open.
    Closed,
}

fn words<'a>(arguments: &'a [&[u8]]) -> impl Iterator<Item = &'a OsStr> {
    arguments.iter().map(|argument| OsStr::from_bytes(argument))
}

/// Runs the program with arguments.
pub fn run_with(name: &str, arguments: &[&[u8]], input: Input) -> Ending {
    let mut command = match input {
        Input::Closed => Command::new("sh"),
        _ => Command::new(path(name)),
    };
    if let Input::Closed = input {
        command.args(["-c", "exec \"$0\" \"$@\" <&-"]).arg(path(name));
    }
    command.args(words(arguments)).stdout(Stdio::piped()).stderr(Stdio::piped());
    match input {
        Input::Pieces(pieces, pause) => {
            fed(spawn(name, command.stdin(Stdio::piped())), pieces.into_iter(), pause, |child| ending(name, child))
        }
        Input::File(file) => ending(name, spawn(name, command.stdin(file))),
        Input::Closed => ending(name, spawn(name, &mut command)),
    }
}

/// Runs the program with its output going to a file.
pub fn run_into_file(name: &str, arguments: &[&[u8]], input: File, file: File) -> Ending {
    ending(name, spawn(name, Command::new(path(name)).args(words(arguments)).stdin(input).stdout(file).stderr(Stdio::piped())))
}

/// What becomes of the signal of a closed pipe: its default, or nothing, as some parents leave it to the programs they start.
#[derive(Clone, Copy)]
pub enum ClosedPipe {
    Signals,
    IsIgnored,
}

/// Runs the program with its output going to a pipe that has no reader.
pub fn run_unread(name: &str, input: &[u8], closed: ClosedPipe) -> Ending {
    let mut command = match closed {
        ClosedPipe::Signals => Command::new(path(name)),
        ClosedPipe::IsIgnored => Command::new("sh"),
    };
    if let ClosedPipe::IsIgnored = closed {
        command.args(["-c", "trap '' PIPE; exec \"$0\""]).arg(path(name));
    }
    let mut child = spawn(name, command.stdin(Stdio::piped()).stdout(Stdio::piped()).stderr(Stdio::piped()));
    drop(child.stdout.take());
    child.stdin.take().expect("standard input is piped").write_all(input).expect("a pipe takes the input");
    ending(name, child)
}
