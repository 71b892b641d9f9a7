//! Faults that either of the programs that print at the end may have.

use crate::found_by;
use refmonitor::compare::{Ran, FIGURES, OBJECTS};
use refmonitor::lines;
use refmonitor::monitor::Monitor;

/// A program: the whole output for an input.
pub type Program = fn(&[u8]) -> Vec<u8>;

/// A broken one, made of the one that is right.
type Fault = fn(Program, &[u8]) -> Vec<u8>;

fn text(right: Program, input: &[u8]) -> String {
    String::from_utf8(right(input)).unwrap()
}

/// The monitor after all readable lines.
pub fn last_state(input: &[u8]) -> Monitor {
    let mut monitor = Monitor::new();
    for (domain, call) in lines::calls(input) {
        drop(monitor.call(domain, &call));
    }
    monitor
}

/// The lines of a text but the last one.
fn but_last(text: &[u8]) -> Vec<u8> {
    let mut lines: Vec<&[u8]> = text.split_inclusive(|&b| b == b'\n').collect();
    lines.pop();
    lines.concat()
}

const FAULTS: [(&str, Fault); 10] = [
    ("answers are printed", |right, input| {
        [lines::run_bytes(input), right(input)].concat()
    }),
    ("answers alone are printed", |_, input| {
        lines::run_bytes(input)
    }),
    ("the last line is not printed", |right, input| {
        but_last(&right(input))
    }),
    ("no last line feed", |right, input| {
        text(right, input).trim_end().into()
    }),
    ("carriage returns", |right, input| {
        text(right, input).replace('\n', "\r\n").into()
    }),
    ("a blank", |right, input| {
        text(right, input).replace(',', ", ").into()
    }),
    ("nothing for no input", |right, input| match input {
        [] => Vec::new(),
        _ => right(input),
    }),
    (
        "a last line without its line feed counts",
        |right, input| right(&[input, b"\n"].concat()),
    ),
    (
        "a line that cannot be read ends the input",
        |right, input| {
            let readable =
                |line: &&[u8]| lines::read(line.strip_suffix(b"\n").unwrap_or(line)).is_some();
            let lines = input.split_inclusive(|&b| b == b'\n');
            right(&lines.take_while(readable).collect::<Vec<_>>().concat())
        },
    ),
    ("the last line is left out", |right, input| {
        right(&but_last(input))
    }),
];

#[test]
fn faults_of_either_are_found() {
    for reference in [FIGURES, OBJECTS] {
        for (name, fault) in FAULTS {
            let mut other = |input: &[u8], _| Ran::well(fault(reference.output, input));
            found_by(reference, name, &mut other, 12);
        }
    }
}
