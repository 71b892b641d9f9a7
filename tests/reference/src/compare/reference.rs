//! The programs that are compared, each with what it should print.

use super::difference::in_form;
use crate::cases::{self, Case};
use crate::{figures, lines, objects};

/// What a program should do.
#[derive(Clone, Copy)]
pub struct Reference {
    /// The whole output for an input.
    pub output: fn(&[u8]) -> Vec<u8>,
    /// Whether an output to an input has the form, right or not.
    pub in_form: fn(&[u8], &[u8]) -> bool,
    /// Inputs with their outputs written out: what they are, and the cases.
    pub written: fn() -> Vec<(&'static str, Vec<Case>)>,
    /// How many beginnings of each input are inputs of their own.
    pub beginnings: usize,
}

/// The call program.
pub const ANSWERS: Reference = Reference {
    output: lines::run_bytes,
    in_form,
    written: || {
        vec![
            ("the paper's cases, answers written out", cases::paper()),
            (
                "every unreadable form, answers written out",
                cases::unreadable(),
            ),
        ]
    },
    beginnings: 0,
};

/// The program `accounts`. It prints at the end alone, so an input is cut in
/// many places.
pub const FIGURES: Reference = Reference {
    output: figures::run_bytes,
    in_form: |_, output| figures::in_form(output),
    written: || {
        vec![
            ("cases, figures written out", cases::figures()),
            other_cases(figures::run_bytes),
        ]
    },
    beginnings: 12,
};

/// The program `objects`, which prints at the end alone too.
pub const OBJECTS: Reference = Reference {
    output: objects::run_bytes,
    in_form: |_, output| objects::in_form(output),
    written: || {
        vec![
            ("cases, objects written out", cases::tables()),
            other_cases(objects::run_bytes),
        ]
    },
    beginnings: 12,
};

/// The inputs of the call program's cases, with another program's outputs.
fn other_cases(output: fn(&[u8]) -> Vec<u8>) -> (&'static str, Vec<Case>) {
    let mut cases = cases::all();
    for case in &mut cases {
        case.output = output(&case.input);
    }
    ("the inputs of all other cases", cases)
}

/// The words by which programs other than the call program are named.
pub const OPTIONS: [(&str, Reference); 2] = [("--accounts", FIGURES), ("--objects", OBJECTS)];

impl Reference {
    /// What the first word asks for and the words behind it, if it is an option;
    /// else the call program and all words.
    pub fn asked<'a>(words: &'a [&'a str]) -> (Reference, &'a [&'a str]) {
        let options = OPTIONS.into_iter();
        let mut asked = options.filter(|(word, _)| words.first() == Some(word));
        match asked.next() {
            Some((_, reference)) => (reference, &words[1..]),
            None => (ANSWERS, words),
        }
    }

    /// The input, then beginnings of it: by turns a line is cut, or not.
    pub(super) fn inputs(&self, input: Vec<u8>) -> Vec<Vec<u8>> {
        let count = self.beginnings;
        let mut inputs = vec![];
        for i in 1..=count {
            let at = input.len() * i / (count + 1);
            let feed = input[at..].iter().position(|&b| b == b'\n');
            let end = match feed {
                Some(feed) if i % 3 != 0 => at + feed + 1,
                _ => at,
            };
            inputs.push(input[..end].to_vec());
        }
        inputs.insert(0, input);
        inputs
    }
}
