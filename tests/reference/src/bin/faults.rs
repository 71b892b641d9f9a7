//! `faults [--accounts | --objects] PROGRAM`: the call program, or the program
//! `accounts` or `objects`, with one read or write that goes wrong, by the library
//! `examples/fault.rs`. Status 1 where its output is not as it should be.
//!
//! Behind a write that fails nothing more is written. A call that is
//! interrupted, would have to wait or moves only a part does not show. A read
//! that fails otherwise is the end of the input.

use refmonitor::compare::Reference;
use refmonitor::inputs;
use refmonitor::lines::HEADER;
use std::env;
use std::fs::File;
use std::io::{self, Write};
use std::path::{Path, PathBuf};
use std::process::{Command, ExitCode, Stdio};

const EINTR: &str = "4";
const EIO: &str = "5";
const EAGAIN: &str = "11";
const ENOSPC: &str = "28";

/// The bytes that the program reads and writes at a time, at most.
const PIECE: usize = 65_536;

/// More calls of a kind than the program makes.
const MANY: usize = 50;

/// A program, the library that makes its calls go wrong, and an input in a file.
struct Bench {
    reference: Reference,
    program: String,
    library: PathBuf,
    file: PathBuf,
    input: Vec<u8>,
    whole: Vec<u8>,
}

impl Bench {
    /// The program's output, with a fault.
    fn output(&self, fault: &str) -> Result<Vec<u8>, String> {
        let stdin = File::open(&self.file).map_err(|e| e.to_string())?;
        let ran = Command::new(&self.program)
            .env("LD_PRELOAD", &self.library)
            .env("FAULT", fault)
            .stdin(stdin)
            .stderr(Stdio::inherit())
            .output()
            .map_err(|e| e.to_string())?;
        if ran.status.success() {
            Ok(ran.stdout)
        } else {
            Err(format!("{fault}: ended with {}", ran.status))
        }
    }

    /// The output with a fault is this.
    fn same(&self, fault: &str, expected: &[u8]) -> Result<(), String> {
        let got = self.output(fault)?;
        if got == expected {
            return Ok(());
        }
        let (got, expected) = (got.len(), expected.len());
        Err(format!(
            "{fault}: {got} bytes, and not the {expected} bytes expected"
        ))
    }

    /// The n-th write fails, for every n: the output is what was written before,
    /// which is nothing, the header if there is one, and then more with each
    /// write. Answers how many writes there are.
    fn failed_writes(&self) -> Result<usize, String> {
        let mut before = Vec::new();
        for n in 1..=MANY {
            let fault = format!("write {n} {ENOSPC}");
            let output = self.output(&fault)?;
            let longer = output.len() > before.len() || n == 1;
            if !self.whole.starts_with(&output) || !longer {
                let (got, had) = (output.len(), before.len());
                return Err(format!(
                    "{fault}: {got} bytes, which are no beginning of the output of more than {had} bytes"
                ));
            }
            let header = self.whole.starts_with(HEADER.as_bytes());
            if n == 1 && !output.is_empty() || n == 2 && header && output != HEADER.as_bytes() {
                return Err(format!("{fault}: not what was written before"));
            }
            if output == self.whole {
                return Ok(n - 1);
            }
            before = output;
        }
        Err(format!("more than {MANY} writes"))
    }

    fn all(&self) -> Result<String, String> {
        self.same("", &self.whole)?;
        let writes = self.failed_writes()?;
        // The answers take the header, each piece once or more often, and the
        // last line; what is printed at the end alone at least one write.
        let pieces = self.input.len().div_ceil(PIECE);
        let fewest = if self.reference.beginnings == 0 {
            pieces + 4
        } else {
            1
        };
        if writes < fewest {
            return Err(format!("{writes} writes are too few to tell"));
        }
        for with in [EINTR, EAGAIN, "short"] {
            for n in 1..=writes {
                self.same(&format!("write {n} {with}"), &self.whole)?;
            }
            for n in 1..=pieces + 1 {
                self.same(&format!("read {n} {with}"), &self.whole)?;
            }
        }
        for n in 1..=pieces {
            let read = &self.input[..(n - 1) * PIECE];
            self.same(&format!("read {n} {EIO}"), &(self.reference.output)(read))?;
        }
        Ok(format!(
            "one of {writes} writes or {} reads goes wrong: ok",
            pieces + 1
        ))
    }
}

/// The library, which cargo builds beside this program.
fn library() -> io::Result<PathBuf> {
    let path = env::current_exe()?.with_file_name("examples");
    path.join("libfault.so").canonicalize()
}

fn bench(reference: Reference, program: &str, file: &Path) -> io::Result<Bench> {
    // Behind the generated lines empty ones, whose answers fill the buffer
    // several times for one piece, and a last line without its line feed.
    let mut input = inputs::input(1, 10_000);
    input.extend([b'\n'; 40_000]);
    input.extend(b"0,RT");
    File::create(file)?.write_all(&input)?;
    let whole = (reference.output)(&input);
    Ok(Bench {
        reference,
        program: program.into(),
        library: library()?,
        file: file.into(),
        input,
        whole,
    })
}

fn main() -> ExitCode {
    let args: Vec<String> = env::args().skip(1).collect();
    let words: Vec<&str> = args.iter().map(String::as_str).collect();
    let (reference, &[program]) = Reference::asked(&words) else {
        eprintln!("usage: faults [--accounts | --objects] PROGRAM");
        return ExitCode::from(2);
    };
    let file = env::temp_dir().join(format!("faults-{}", std::process::id()));
    let told = bench(reference, program, &file)
        .map_err(|e| e.to_string())
        .and_then(|bench| bench.all());
    drop(std::fs::remove_file(&file));
    match told {
        Ok(said) => {
            println!("{said}");
            ExitCode::SUCCESS
        }
        Err(trouble) => {
            println!("{trouble}");
            ExitCode::FAILURE
        }
    }
}
