//! `generate SEED LINES`: call lines from a seed.

use std::io::{self, BufWriter};
use std::process::ExitCode;

fn main() -> ExitCode {
    let numbers: Vec<Option<u64>> = std::env::args().skip(1).map(|a| a.parse().ok()).collect();
    let [Some(seed), Some(lines)] = numbers[..] else {
        eprintln!("usage: generate SEED LINES");
        return ExitCode::FAILURE;
    };
    let mut output = BufWriter::new(io::stdout().lock());
    match refmonitor::inputs::write_input(seed, lines, &mut output) {
        Ok(()) => ExitCode::SUCCESS,
        Err(e) => {
            eprintln!("generate: {e}");
            ExitCode::FAILURE
        }
    }
}
