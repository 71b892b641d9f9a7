//! `explain CALLS < ANSWERS`: each line of a call file beside its answer, in
//! words. Status 1 where the answers are not those of a whole run.

use std::fs;
use std::io::{self, Read, Write};
use std::process::ExitCode;

fn run(calls: &str) -> Result<(), String> {
    let input = fs::read(calls).map_err(|e| format!("{calls}: {e}"))?;
    let mut output = Vec::new();
    let read = io::stdin().lock().read_to_end(&mut output);
    read.map_err(|e| format!("the answers: {e}"))?;
    let text = refmonitor::explain::explain(&input, &output)
        .ok_or_else(|| format!("the answers are not a line for a line of {calls}"))?;
    let written = io::stdout().lock().write_all(text.as_bytes());
    written.map_err(|e| e.to_string())
}

fn main() -> ExitCode {
    let args: Vec<String> = std::env::args().skip(1).collect();
    let [calls] = &args[..] else {
        eprintln!("usage: explain CALLS < ANSWERS");
        return ExitCode::FAILURE;
    };
    match run(calls) {
        Ok(()) => ExitCode::SUCCESS,
        Err(e) => {
            eprintln!("explain: {e}");
            ExitCode::FAILURE
        }
    }
}
