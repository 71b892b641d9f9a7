//! What the program `accounts` prints: the pages of each account.

use crate::at_end;
use crate::lines::number;
use crate::monitor::{Monitor, ACCOUNTS};

/// The figures in print: a line for each account, rising.
pub fn text(figures: [u64; ACCOUNTS]) -> String {
    let lines = figures.iter().enumerate();
    lines.map(|(a, pages)| format!("{a},{pages}\n")).collect()
}

/// What is printed of a state.
pub fn printed(monitor: &Monitor) -> String {
    text(monitor.figures())
}

/// Four lines, each an account in its place and a number. It does not ask what
/// is right.
pub fn in_form(output: &[u8]) -> bool {
    let lines: Vec<&[u8]> = output.split_inclusive(|&b| b == b'\n').collect();
    let in_form = |account: usize, line: &[u8]| {
        let start = format!("{account},");
        let pages = line.strip_prefix(start.as_bytes());
        let pages = pages.and_then(|pages| pages.strip_suffix(b"\n"));
        pages.is_some_and(|pages| number(pages).is_some())
    };
    lines.len() == ACCOUNTS && lines.iter().enumerate().all(|(a, line)| in_form(a, line))
}

/// The program over bytes in memory.
pub fn run_bytes(input: &[u8]) -> Vec<u8> {
    at_end::run_bytes(printed, input)
}
