//! `workload LINES [mixed]`: lines for benchmarks.

use refmonitor::workload::{self, MIXED, WORKLOAD};
use std::io::{self, BufWriter};
use std::process::ExitCode;

fn main() -> ExitCode {
    let args: Vec<String> = std::env::args().skip(1).collect();
    let shares = match args.get(1).map(String::as_str) {
        None => Some(&WORKLOAD),
        Some("mixed") => Some(&MIXED),
        Some(_) => None,
    };
    let lines: Option<u64> = args.first().and_then(|a| a.parse().ok());
    let (Some(lines), Some(shares), true) = (lines, shares, args.len() < 3) else {
        eprintln!("usage: workload LINES [mixed]");
        return ExitCode::FAILURE;
    };
    let mut output = BufWriter::new(io::stdout().lock());
    match workload::write(shares, lines, &mut output) {
        Ok(()) => ExitCode::SUCCESS,
        Err(e) => {
            eprintln!("workload: {e}");
            ExitCode::FAILURE
        }
    }
}
