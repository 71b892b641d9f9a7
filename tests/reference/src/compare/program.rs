//! Running a program on an input.

use std::fs::{self, File};
use std::io::{self, Read, Seek, Write};
use std::process::{self, ChildStdin, ChildStdout, Command, Stdio};
use std::sync::atomic::{AtomicU64, Ordering};
use std::sync::mpsc;
use std::thread;
use std::time::Duration;

/// How long the other program may take for one input.
const LIMIT: Duration = Duration::from_secs(10);

/// Pauses before the first piece and between two, so that each is read by
/// itself.
const START: Duration = Duration::from_millis(10);
const PAUSE: Duration = Duration::from_micros(50);

/// How an input comes to the program.
#[derive(Clone, Copy, Debug, PartialEq, Eq)]
pub enum Feed {
    /// As a file.
    File,
    /// Through a pipe, all at once.
    Pipe,
    /// Through a pipe, so many bytes at a time.
    Pieces(usize),
}

/// What came of an input: the output, and a word on an unusual end.
#[derive(Clone, Debug, PartialEq, Eq)]
pub struct Ran {
    pub output: Vec<u8>,
    pub trouble: Option<String>,
}

impl Ran {
    pub fn well(output: Vec<u8>) -> Self {
        Ran {
            output,
            trouble: None,
        }
    }
}

/// A file that holds the input and has no name any more.
fn nameless(input: &[u8]) -> io::Result<File> {
    static COUNT: AtomicU64 = AtomicU64::new(0);
    let count = COUNT.fetch_add(1, Ordering::Relaxed);
    let name = format!("compare-{}-{count}", process::id());
    let path = std::env::temp_dir().join(name);
    let mut file = File::options()
        .create_new(true)
        .read(true)
        .write(true)
        .open(&path)?;
    fs::remove_file(&path)?;
    file.write_all(input)?;
    file.rewind()?;
    Ok(file)
}

/// Write an input into a pipe. A program that stops reading early shows in its
/// output, so errors are let pass.
fn pour(mut to: ChildStdin, input: &[u8], feed: Feed) {
    match feed {
        Feed::Pieces(size) => {
            thread::sleep(START);
            for piece in input.chunks(size) {
                if to.write_all(piece).is_err() {
                    break;
                }
                thread::sleep(PAUSE);
            }
        }
        _ => drop(to.write_all(input)),
    }
}

/// Read a program's output, so many bytes at most and within the limit.
fn drain(from: ChildStdout, most: u64) -> io::Result<Ran> {
    let (send, receive) = mpsc::channel();
    thread::spawn(move || {
        let mut output = Vec::new();
        let result = from.take(most).read_to_end(&mut output).map(|_| output);
        drop(send.send(result));
    });
    let (output, trouble) = match receive.recv_timeout(LIMIT) {
        Ok(output) => {
            let output = output?;
            let flood = output.len() as u64 == most;
            (output, flood.then(|| "no end of output".to_string()))
        }
        Err(_) => {
            let trouble = format!("no end within {} s", LIMIT.as_secs());
            (Vec::new(), Some(trouble))
        }
    };
    Ok(Ran { output, trouble })
}

/// Run a program on an input.
pub fn run_program(program: &str, input: &[u8], feed: Feed) -> io::Result<Ran> {
    let stdin = match feed {
        Feed::File => Stdio::from(nameless(input)?),
        _ => Stdio::piped(),
    };
    let mut child = Command::new(program)
        .stdin(stdin)
        .stdout(Stdio::piped())
        .stderr(Stdio::null())
        .spawn()?;
    if let Some(to) = child.stdin.take() {
        let input = input.to_vec();
        thread::spawn(move || pour(to, &input, feed));
    }
    let from = child.stdout.take().expect("piped");
    // No right output is as long as this.
    let feeds = input.iter().filter(|&&b| b == b'\n').count() as u64;
    let most = 1000 + 200 * feeds;
    let Ran { output, trouble } = drain(from, most)?;
    if trouble.is_some() {
        child.kill()?;
    }
    let status = child.wait()?;
    let trouble = trouble.or_else(|| (!status.success()).then(|| status.to_string()));
    Ok(Ran { output, trouble })
}
