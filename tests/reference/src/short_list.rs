//! Clists of 10 pairs in an object of one page: domain 0's behind the home's,
//! and domain 1's home alone. A stage for single lines of the benchmark.

use crate::generate::Line;
use crate::monitor::*;

/// The pairs of a Clist; the rest of its page is zero.
pub const PAIRS: u64 = 10;
const LAST_PLACE: u64 = PAIRS - 1;

/// A Clist of a domain, by its page, and the pages that its first pair names,
/// that its last one names, and that none names.
pub struct List {
    pub domain: u64,
    pub page: u64,
    first: u64,
    last: u64,
    unnamed: u64,
}

/// In slot 1.
pub const BEHIND: List = List {
    domain: 0,
    page: 1,
    first: 2,
    last: 3,
    unnamed: 4,
};

/// In slot 0: the home, whose first pair names itself.
pub const ALONE: List = List {
    domain: 1,
    page: 32,
    first: 32,
    last: 33,
    unnamed: 34,
};

/// A page from which on there are no objects in an estate.
const DEAD: u64 = 20;

/// The home passwords are those of the pages 0, 32, 64 and 96.
fn password(page: u64) -> u64 {
    11 + page
}

impl List {
    /// The page that a place names.
    fn named(&self, place: u64) -> u64 {
        match place {
            0 => self.first,
            LAST_PLACE => self.last,
            _ => self.domain * ESTATE_PAGES + DEAD + place,
        }
    }

    fn fill(&self, lines: &mut Vec<Line>) {
        for place in 0..PAIRS {
            let at = self.page * PAGE_WORDS + 2 * place;
            self.write_pair(at, self.named(place), lines);
        }
    }

    fn write_pair(&self, at: u64, page: u64, lines: &mut Vec<Line>) {
        lines.push(Line::new(self.domain, "WR", &[at, page * 256 + OWNER]));
        lines.push(Line::new(self.domain, "WR", &[at + 1, password(page)]));
    }

    fn read(&self, page: u64) -> Line {
        Line::new(self.domain, "RD", &[page * PAGE_WORDS])
    }

    /// An RD that the first pair grants.
    pub fn granted_first(&self) -> Line {
        self.read(self.first)
    }

    /// An RD that the last pair grants.
    pub fn granted_last(&self) -> Line {
        self.read(self.last)
    }

    /// An RD that no pair grants, of an object that stands.
    pub fn refused(&self) -> Line {
        self.read(self.unnamed)
    }
}

/// The lines that set the stage.
pub fn stage() -> Vec<Line> {
    let homes = [0, 1, 2, 3].map(|d| password(d * ESTATE_PAGES));
    let mut lines = vec![Line::boot(0, homes)];
    for page in [1, 2, 3, 4, 33, 34] {
        let d = page / ESTATE_PAGES;
        lines.push(Line::new(d, "CR", &[page, 1, password(page), 0]));
    }
    // The home's second pair owns the Clist.
    BEHIND.write_pair(2, BEHIND.page, &mut lines);
    let slot = [1, BEHIND.page, password(BEHIND.page)];
    lines.push(Line::new(BEHIND.domain, "IN", &slot));
    BEHIND.fill(&mut lines);
    ALONE.fill(&mut lines);
    lines
}
