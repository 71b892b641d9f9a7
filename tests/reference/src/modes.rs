//! The mode table of T-04: what the printing program has to print, what a
//! monitor that uses the table answers, and the chart in docs/MODES.md.

use crate::lines::{BOOT, HEADER};
use crate::monitor::{legal_mode, D, NOT, P, R, W, X};

/// As many entries as there are modes.
pub const MODES: usize = 256;

/// So many of them are 1.
pub const LEGAL: usize = 46;

/// The letters of a mode, in the order in which they are spelt.
const LETTERS: [(u64, char); 6] = [(NOT, 'N'), (R, 'R'), (W, 'W'), (X, 'X'), (D, 'D'), (P, 'P')];

/// The width of a cell of the chart.
const CELL: usize = 8;

/// The text that the rule gives: a line for each mode.
pub fn by_rule() -> String {
    let line = |mode| if legal_mode(mode) { "1\n" } else { "0\n" };
    (0..MODES as u64).map(line).collect()
}

/// The entries of a printed text, if it is one entry a line and nothing else.
fn entries(text: &str) -> Result<Vec<bool>, String> {
    let lines = text.split_inclusive('\n').enumerate();
    let entries: Vec<bool> = lines
        .map(|(at, line)| match line {
            "0\n" => Ok(false),
            "1\n" => Ok(true),
            _ => Err(format!("line {} is {line:?}, no entry", at + 1)),
        })
        .collect::<Result<_, _>>()?;
    if entries.len() == MODES {
        Ok(entries)
    } else {
        Err(format!("{} entries, and not {MODES}", entries.len()))
    }
}

/// The entries of a printed text, each by the rule.
pub fn printed(text: &str) -> Result<Vec<bool>, String> {
    let entries = entries(text)?;
    for (mode, &legal) in entries.iter().enumerate() {
        if legal != legal_mode(mode as u64) {
            return Err(format!("the entry of mode {mode} is not the rule's"));
        }
    }
    match entries.iter().filter(|&&legal| legal).count() {
        LEGAL => Ok(entries),
        ones => Err(format!("{ones} entries are 1, and not {LEGAL}")),
    }
}

/// Call lines that add a password in each mode, and drop it again; and the
/// whole output of a monitor that uses these entries.
pub fn trials(entries: &[bool]) -> (String, String) {
    let mut input = format!("{BOOT}\n");
    let mut output = format!("{HEADER}1,0,0\n");
    for (mode, legal) in entries.iter().enumerate() {
        input += &format!("0,AP,0,21,{mode}\n0,DP,0,21\n");
        let (added, dropped) = if *legal { (0, 0) } else { (5, 12) };
        let at = 2 * mode + 2;
        output += &format!("{at},{added},0\n{},{dropped},0\n", at + 1);
    }
    (input, output)
}

/// A mode in letters.
fn spelt(mode: u64) -> String {
    let held = LETTERS.iter().filter(|(bit, _)| mode & bit != 0);
    held.map(|(_, letter)| letter).collect()
}

/// A line of the chart, indented as a block of the document.
fn row(head: &str, cells: impl Iterator<Item = String>) -> String {
    let cells: String = cells.map(|cell| format!(" {cell:CELL$}")).collect();
    format!("    {head:>3} {cells}").trim_end().to_string() + "\n"
}

/// The chart: sixteen rows of sixteen modes, 1 and its letters for a legal one
/// and 0 for any other.
pub fn chart(entries: &[bool]) -> String {
    let cell = |mode: usize| match entries[mode] {
        true => format!("1 {}", spelt(mode as u64)),
        false => "0".to_string(),
    };
    let mut text = row("", (0..16).map(|place| format!("+{place}")));
    for first in (0..MODES).step_by(16) {
        text += &row(&first.to_string(), (first..first + 16).map(cell));
    }
    text
}

/// The indented lines of a document.
pub fn block(document: &str) -> String {
    let indented = |line: &&str| line.starts_with("    ");
    document.split_inclusive('\n').filter(indented).collect()
}
