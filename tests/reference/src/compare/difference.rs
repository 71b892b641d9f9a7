//! Inputs on which two implementations differ.

use super::program::{Feed, Ran};
use super::reference::Reference;
use crate::lines::{self, HEADER};

/// Another implementation: the whole output for an input.
pub type Other<'a> = &'a mut dyn FnMut(&[u8], Feed) -> Ran;

/// An input on which two implementations differ, and their outputs.
#[derive(Clone)]
pub struct Difference {
    pub reference: Reference,
    pub name: String,
    pub feed: Feed,
    pub input: Vec<u8>,
    pub expected: Vec<u8>,
    pub got: Ran,
}

/// How many lines an input has; a last part without a line feed is one.
pub fn line_count(input: &[u8]) -> usize {
    input.split_inclusive(|&b| b == b'\n').count()
}

/// A line for a line: the header, then for each line of the input its number,
/// an answer that can occur, and values. It does not ask what is right.
pub fn in_form(input: &[u8], output: &[u8]) -> bool {
    let Some(rest) = output.strip_prefix(HEADER.as_bytes()) else {
        return false;
    };
    let in_form = |number: usize, line: &[u8]| {
        let Some(line) = line.strip_suffix(b"\n") else {
            return false;
        };
        let fields: Option<Vec<u64>> = line.split(|&b| b == b',').map(lines::number).collect();
        fields.is_some_and(|f| {
            f.len() > 2
                && f[0] == number as u64
                && matches!(f[1], 0 | 1 | 4..=12 | 14 | 15)
                && (f[1] == 0 || f[2..] == [0])
        })
    };
    line_count(rest) == line_count(input)
        && rest
            .split_inclusive(|&b| b == b'\n')
            .enumerate()
            .all(|(i, line)| in_form(i + 1, line))
}

/// The difference from the expected output on one input, if there is one.
pub(super) fn differ_from(
    reference: Reference,
    other: Other,
    name: &str,
    input: &[u8],
    feed: Feed,
    expected: Vec<u8>,
) -> Option<Difference> {
    let got = other(input, feed);
    if got.trouble.is_none() && got.output == expected && (reference.in_form)(input, &expected) {
        return None;
    }
    Some(Difference {
        reference,
        name: name.to_string(),
        feed,
        input: input.to_vec(),
        expected,
        got,
    })
}

/// The difference from the reference on one input, if there is one.
pub fn differ(
    reference: Reference,
    other: Other,
    name: &str,
    input: &[u8],
    feed: Feed,
) -> Option<Difference> {
    let expected = (reference.output)(input);
    differ_from(reference, other, name, input, feed, expected)
}
