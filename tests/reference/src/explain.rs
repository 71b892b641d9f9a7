//! Call lines beside their answers, the answers in words.

use crate::compare::in_form;
use crate::coverage::letters_of;
use crate::lines::{self, HEADER, MAX_LINE};
use std::fmt::Write;

/// Calls of more bytes than this do not widen the column of all.
const COLUMN: usize = 40;

/// A row for each line of the input: its number, the line, the answer and what
/// it means. `None` where the output is not a line for a line of the input.
pub fn explain(input: &[u8], output: &[u8]) -> Option<String> {
    if !in_form(input, output) {
        return None;
    }
    let calls: Vec<&[u8]> = input.split_inclusive(|&b| b == b'\n').collect();
    let answers = output[HEADER.len()..].split(|&b| b == b'\n');
    let widths = calls.iter().map(|call| shown(call).len());
    let column = widths.filter(|&width| width <= COLUMN).max().unwrap_or(0);
    let digits = calls.len().to_string().len();
    let mut text = String::new();
    for (i, (call, answer)) in calls.iter().zip(answers).enumerate() {
        let fields: Vec<u64> = answer
            .split(|&b| b == b',')
            .filter_map(lines::number)
            .collect();
        let (number, shown, answer) = (i + 1, shown(call), fields[1]);
        let words = words(call, answer, &fields[2..]);
        writeln!(
            text,
            "{number:>digits$}  {shown:<column$}  {answer:>2}  {words}"
        )
        .ok()?;
    }
    Some(text)
}

/// A line in print, without its line feed: bytes that are not printable ASCII
/// as escapes, and of a line that is too long only its start.
fn shown(line: &[u8]) -> String {
    let line = line.strip_suffix(b"\n").unwrap_or(line);
    let start = &line[..line.len().min(MAX_LINE)];
    let mut text = start.escape_ascii().to_string();
    if start.len() < line.len() {
        text += &format!("... ({} bytes)", line.len());
    }
    text
}

/// What an answer to a line means.
fn words(line: &[u8], answer: u64, values: &[u64]) -> String {
    let letters = letters_of(line.strip_suffix(b"\n").unwrap_or(line));
    match answer {
        0 => done(letters, values),
        1 if !line.ends_with(b"\n") => {
            format!("refused: {} (no line feed)", refusal(letters, answer))
        }
        _ => format!("refused: {}", refusal(letters, answer)),
    }
}

/// Numbers parted by commas.
fn list(numbers: &[u64]) -> String {
    let numbers: Vec<String> = numbers.iter().map(u64::to_string).collect();
    numbers.join(", ")
}

fn done(letters: &str, values: &[u64]) -> String {
    match (letters, values) {
        ("GT", [slots, locked, whole, pages @ ..]) => {
            let s = if *slots == 1 { "" } else { "s" };
            let not = if *whole == 0 { "not " } else { "" };
            let mut text = format!("done: {slots} slot{s}, {locked} locked, whole lock {not}set");
            if !pages.is_empty() {
                text += &format!("; page{s} {}", list(pages));
            }
            text
        }
        ("EX", [address]) => format!("done, address {address}"),
        ("LK", [address]) => format!("done, granted by the pair at {address}"),
        ("CA", [entry]) => format!("done, entered at {entry}"),
        (letters, [0]) if letters != "RD" => "done".to_string(),
        (_, values) => format!("done, value {}", list(values)),
    }
}

/// Why a call is refused, in the words of docs/CALLS.md.
pub fn refusal(letters: &str, answer: u64) -> &'static str {
    match (answer, letters) {
        (1, _) => "the line is not readable",
        (4, _) => "the domain is above 3",
        (5, _) => "an argument is out of its range",
        (6, "IN" | "RM") => "the slot is locked, or the whole lock is set",
        (6, _) => "the whole lock is set",
        (7, "IN") => "the presented capability opens nothing",
        (7, "RG") => "the rights are not granted, or the presented capability opens nothing",
        (7, _) => "the rights are not granted",
        (8, "RG") => "an entry lies outside the object",
        (8, _) => "the address is no entry",
        (9, _) => "the run leaves the caller's estate or meets an object",
        (10, _) => "the object has that password already",
        (11, "CR") => "full: 8 objects",
        (11, "AP") => "full: 4 passwords",
        (11, "RG") => "full: a registration",
        (11, "CA") => "full: 8 slots or 4 saved domains",
        (11, _) => "full: 8 slots",
        (12, "DP") => "nothing there: no such password",
        (12, "RT") => "nothing saved",
        (12, _) => "nothing there: no such slot",
        (14, _) => "the account is not in the caller's set",
        (15, _) => "the account's pages would pass its limit",
        _ => "the number has no words here",
    }
}
