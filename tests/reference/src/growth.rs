//! A domain with a given number of pairs in force: the first alone in slot 0,
//! all others in the slots behind it. Stages for the benchmark, and the reads
//! that are counted behind them.

use crate::generate::Line;
use crate::monitor::*;

/// The domain that reads. Its home is the Clist in slot 0, of one pair, which
/// names the home.
pub const DOMAIN: u64 = 3;
pub const HOME: u64 = 96;

/// The objects that the last pair names, and that no pair names.
const NAMED_LAST: u64 = 97;
const UNNAMED: u64 = 98;

/// The Clist in the last slot, and the one in all slots between: each has the
/// whole of another domain's estate.
pub const LAST_LIST: u64 = 0;
const FULL_LIST: u64 = 32;
pub const LIST_PAIRS: u64 = ESTATE_PAGES * PAIRS_PER_PAGE;

/// The read lines that are counted: so few that every input is one piece of
/// 64 KiB, in which the program reads.
pub const LINES: u64 = 400;

/// How many pairs the last slot's Clist has, and how many slots with a full
/// Clist stand between the first and the last.
pub struct Stage {
    pub last: u64,
    pub between: u64,
}

const fn one_later_slot(last: u64) -> Stage {
    Stage { last, between: 0 }
}

/// From two pairs to as many as eight slots hold behind a first slot of one.
pub const STAGES: [Stage; 5] = [
    one_later_slot(1),
    one_later_slot(64),
    one_later_slot(499),
    one_later_slot(899),
    Stage {
        last: LIST_PAIRS,
        between: MAX_SLOTS as u64 - 2,
    },
];

impl Stage {
    /// The pairs in force: those of all live lists of the domain.
    pub fn pairs(&self) -> u64 {
        1 + self.between * LIST_PAIRS + self.last
    }

    /// The lines that set the stage.
    pub fn lines(&self) -> Vec<Line> {
        let mut lines = vec![Line::boot(0, [0, 1, 2, 3].map(|d| 11 + d))];
        for page in [NAMED_LAST, UNNAMED] {
            lines.push(Line::new(DOMAIN, "CR", &[page, 1, password(page), 0]));
        }
        create_list(LAST_LIST, &mut lines);
        fill(LAST_LIST, self.last - 1, &mut lines);
        let last = LAST_LIST * PAGE_WORDS + 2 * (self.last - 1);
        write_pair(last, capability(NAMED_LAST), &mut lines);
        create_list(FULL_LIST, &mut lines);
        if self.between > 0 {
            fill(FULL_LIST, LIST_PAIRS, &mut lines);
        }
        // The home's list ends behind its first pair.
        write_pair(HOME * PAGE_WORDS + 2, [0, 0], &mut lines);
        insert(LAST_LIST, &mut lines);
        for _ in 0..self.between {
            insert(FULL_LIST, &mut lines);
        }
        lines
    }
}

fn password(page: u64) -> u64 {
    101 + page
}

/// The owner's capability for an object of the stage, as a pair has it.
fn capability(page: u64) -> [u64; 2] {
    [page * 256 + OWNER, password(page)]
}

fn write_pair(at: u64, pair: [u64; 2], lines: &mut Vec<Line>) {
    for (i, word) in pair.into_iter().enumerate() {
        lines.push(Line::new(DOMAIN, "WR", &[at + i as u64, word]));
    }
}

/// An object of a whole estate, in place of its home. The reading domain owns
/// it by its home's second pair.
fn create_list(page: u64, lines: &mut Vec<Line>) {
    let owner = page / ESTATE_PAGES;
    let args = [page, ESTATE_PAGES, password(page), 0];
    lines.push(Line::new(owner, "DL", &[page]));
    lines.push(Line::new(owner, "CR", &args));
    write_pair(HOME * PAGE_WORDS + 2, capability(page), lines);
}

/// So many pairs, which name pages that are no object's, and zeros behind them.
/// All places are written, so that the lines behind every stage have numbers of
/// four digits.
fn fill(page: u64, pairs: u64, lines: &mut Vec<Line>) {
    for place in 0..LIST_PAIRS {
        let pair = match place < pairs {
            true => capability(65 + place % 31),
            false => [0, 0],
        };
        write_pair(page * PAGE_WORDS + 2 * place, pair, lines);
    }
}

/// Slot 1 takes the Clist, and those behind move down.
fn insert(page: u64, lines: &mut Vec<Line>) {
    let args = [1, page, password(page)];
    lines.push(Line::new(DOMAIN, "IN", &args));
}

/// Gives the home a password that denies R, and stands in no list.
pub fn denying() -> Line {
    Line::new(DOMAIN, "AP", &[HOME, password(HOME), NOT | R])
}

/// An RD of a page's last word, which is zero.
fn read(page: u64) -> Line {
    let last = page * PAGE_WORDS + PAGE_WORDS - 1;
    Line::new(DOMAIN, "RD", &[last])
}

/// An RD that the first pair grants.
pub fn granted_first() -> Line {
    read(HOME)
}

/// An RD that the last pair grants.
pub fn granted_last() -> Line {
    read(NAMED_LAST)
}

/// An RD that no pair grants, of an object that stands.
pub fn refused() -> Line {
    read(UNNAMED)
}
