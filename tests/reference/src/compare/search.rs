//! Looking for differences in inputs of every family.

use super::difference::{differ_from, line_count, Difference, Other};
use super::program::Feed;
use super::reference::Reference;
use crate::cases::Case;
use crate::coverage::Coverage;
use crate::inputs;

/// How many differing inputs are looked for, at most: of a family, and before
/// the next family.
const ENOUGH: usize = 2;
const PLENTY: usize = 3;

/// How much to compare.
#[derive(Clone, Copy, Debug)]
pub struct Plan {
    /// Generated inputs: the first seed, how many, and the lines of each.
    pub first: u64,
    pub seeds: u64,
    pub lines: u64,
}

/// What was compared without a difference.
pub struct Compared {
    pub lines: usize,
    /// Over the generated lines alone.
    pub coverage: Coverage,
}

/// A comparison under way.
struct Search<'a> {
    reference: Reference,
    other: Other<'a>,
    tell: &'a mut dyn FnMut(&str),
    lines: usize,
    found: Vec<Difference>,
}

/// An input to compare, with its whole output where that is written out.
struct Input {
    name: String,
    bytes: Vec<u8>,
    feed: Feed,
    written: Option<Vec<u8>>,
}

impl Input {
    fn new(name: String, bytes: Vec<u8>, feed: Feed) -> Self {
        Input {
            name,
            bytes,
            feed,
            written: None,
        }
    }

    fn case(case: Case, feed: Feed) -> Self {
        Input {
            name: case.name,
            bytes: case.input,
            feed,
            written: Some(case.output),
        }
    }
}

/// The pieces in which input comes, in bytes.
const PIECES: [usize; 9] = [1, 2, 7, 200, 201, 202, 4095, 4096, 4097];

impl Search<'_> {
    /// Take inputs until enough of them differ; then say how many they were.
    fn family(&mut self, what: &str, inputs: impl IntoIterator<Item = Input>) {
        if self.found.len() >= PLENTY {
            return;
        }
        let (mut count, mut lines, mut found) = (0, 0, 0);
        for input in inputs {
            count += 1;
            lines += line_count(&input.bytes);
            if self.compare(input) {
                found += 1;
                if found == ENOUGH {
                    break;
                }
            }
        }
        self.lines += lines;
        let differs = if found > 0 { ": A DIFFERENCE" } else { "" };
        (self.tell)(&format!("{what}: {count} inputs, {lines} lines{differs}"));
    }

    /// Compare on an input, and on beginnings of it; true for a difference.
    fn compare(&mut self, input: Input) -> bool {
        let reference = self.reference;
        let mut written = input.written;
        let inputs = match input.feed {
            Feed::Pieces(_) => vec![input.bytes],
            _ => reference.inputs(input.bytes),
        };
        for bytes in inputs {
            let expected = written.take().unwrap_or_else(|| (reference.output)(&bytes));
            let (name, feed) = (&input.name, input.feed);
            let difference = differ_from(reference, self.other, name, &bytes, feed, expected);
            if difference.is_some() {
                self.found.extend(difference);
                return true;
            }
        }
        false
    }

    fn written_cases(&mut self) {
        let feeds = [Feed::Pipe, Feed::File];
        for ((what, cases), feed) in (self.reference.written)().into_iter().zip(feeds) {
            let inputs = cases.into_iter().map(|case| Input::case(case, feed));
            self.family(what, inputs);
        }
    }

    fn ranges(&mut self) {
        self.family(
            "every range, every byte",
            [
                Input::new("every range".into(), inputs::sweep(), Feed::File),
                Input::new("every byte".into(), inputs::bytes(), Feed::File),
            ],
        );
    }

    /// What the generated lines reach is counted.
    fn generated(&mut self, plan: Plan) -> Coverage {
        let mut coverage = Coverage::new();
        let last = plan.first + plan.seeds - 1;
        self.family(
            &format!("generated, seeds {} to {last}", plan.first),
            (plan.first..=last).map(|seed| {
                let bytes = inputs::input(seed, plan.lines);
                coverage.run(&bytes);
                let feed = [Feed::File, Feed::Pipe][seed as usize % 2];
                Input::new(format!("generated, seed {seed}"), bytes, feed)
            }),
        );
        coverage
    }

    fn across(&mut self) {
        let across = inputs::across().into_iter();
        self.family(
            "lines across 4 KiB and 64 KiB",
            across.map(|(name, bytes)| Input::new(name, bytes, Feed::File)),
        );
    }

    fn damaged(&mut self, plan: Plan) {
        let last = plan.first + 6 * inputs::RUBBISH - 1;
        self.family(
            &format!("damaged, seeds {} to {last}", plan.first),
            (plan.first..=last).map(|seed| {
                let bytes = inputs::rubbish(seed, plan.lines);
                let feed = [Feed::File, Feed::Pipe][seed as usize / 2 % 2];
                Input::new(format!("damaged, seed {seed}"), bytes, feed)
            }),
        );
    }

    fn in_pieces(&mut self, Plan { first, lines, .. }: Plan) {
        let whole = [
            ("generated", inputs::input(first, lines)),
            ("damaged", inputs::damaged_bytes(first, lines)),
            ("long lines", inputs::long_lines(first)),
        ];
        let pieces = PIECES.into_iter().flat_map(|size| {
            whole.each_ref().map(|(name, bytes)| {
                let end = bytes.len().min(1500 * size);
                let name = format!("{name}, in pieces of {size} bytes");
                Input::new(name, bytes[..end].to_vec(), Feed::Pieces(size))
            })
        });
        self.family(&format!("in pieces, seed {first}"), pieces);
    }
}

/// Feed inputs of every family. `tell` hears of each family.
pub fn search(
    reference: Reference,
    other: Other,
    plan: Plan,
    tell: &mut dyn FnMut(&str),
) -> Result<Compared, Vec<Difference>> {
    let mut search = Search {
        reference,
        other,
        tell,
        lines: 0,
        found: Vec::new(),
    };
    if reference.beginnings > 0 {
        let times = reference.beginnings;
        (search.tell)(&format!(
            "each input, if not in pieces, is also cut short {times} times"
        ));
    }
    search.written_cases();
    search.ranges();
    let coverage = search.generated(plan);
    search.across();
    search.damaged(plan);
    search.in_pieces(plan);
    if !search.found.is_empty() {
        return Err(search.found);
    }
    Ok(Compared {
        lines: search.lines,
        coverage,
    })
}
