//! Lines for benchmarks, mostly granted, over Clists of 10 to 60 pairs: two
//! loads behind the same stage.

use crate::generate::Line;
use crate::monitor::*;
use crate::random::Random;
use std::io::{self, Write};

/// The pairs filled in each domain's Clist.
pub const PAIRS: [u64; DOMAINS] = [10, 25, 40, 60];

/// The home password of a domain.
fn home(d: u64) -> u64 {
    11 + d
}

/// A domain's objects, by page within the estate: the home page 0, the Clist
/// in pages 1 and 2, the service in page 3, data in pages 4 to 7.
const CLIST: u64 = 1;
const SERVICE: u64 = 3;
const DATA: [u64; 4] = [4, 5, 6, 7];

fn clist_password(d: u64) -> u64 {
    100 + d
}

fn service_password(d: u64) -> u64 {
    200 + d
}

fn entry_password(d: u64) -> u64 {
    300 + d
}

fn data_password(d: u64, page: u64) -> u64 {
    400 + 10 * d + page
}

fn base(d: u64, page: u64) -> u64 {
    d * ESTATE_PAGES + page
}

/// A word of a domain's data, in the page that its Clist names last.
pub fn data_word(d: u64) -> u64 {
    base(d, DATA[3]) * PAGE_WORDS
}

/// The first entry of a domain's service.
pub fn entry(d: u64) -> u64 {
    base(d, SERVICE) * PAGE_WORDS
}

/// The base and password of an object that has died, of which the Clist has a pair.
pub fn dead(d: u64) -> [u64; 2] {
    [base(d, 20 + DATA[1]), data_password(d, DATA[1])]
}

/// The lines that set the stage.
pub fn stage() -> Vec<Line> {
    let mut lines = vec![Line::boot(0, [home(0), home(1), home(2), home(3)])];
    for d in 0..DOMAINS as u64 {
        create_objects(d, &mut lines);
        set_up_clists(d, &mut lines);
    }
    for d in 0..DOMAINS as u64 {
        let start = base(d, CLIST) * PAGE_WORDS;
        for place in 0..PAIRS[d as usize] {
            write_pair(d, start + 2 * place, pair(d, place), &mut lines);
        }
    }
    lines
}

/// A domain's Clist, service and data.
fn create_objects(d: u64, lines: &mut Vec<Line>) {
    let mut create = |page, count, password| {
        lines.push(Line::new(d, "CR", &[base(d, page), count, password, 0]));
    };
    create(CLIST, 2, clist_password(d));
    create(SERVICE, 1, service_password(d));
    for page in DATA {
        create(page, 1, data_password(d, page));
    }
}

/// The home Clist owns the domain's Clist and service; the Clist is inserted
/// and the service registered.
fn set_up_clists(d: u64, lines: &mut Vec<Line>) {
    let start = base(d, 0) * PAGE_WORDS;
    let own = [
        (base(d, CLIST), clist_password(d)),
        (base(d, SERVICE), service_password(d)),
    ];
    for (i, owned) in own.into_iter().enumerate() {
        write_pair(d, start + 2 + 2 * i as u64, owned, lines);
    }
    let args = [base(d, CLIST), clist_password(d)];
    lines.push(Line::new(d, "IN", &[1, args[0], args[1]]));
    let args = [
        base(d, SERVICE),
        entry_password(d),
        base(d, CLIST),
        clist_password(d),
        entry(d),
        entry(d) + 8,
    ];
    lines.push(Line::new(d, "RG", &args));
}

/// A pair with the owner's right, at an address.
fn write_pair(d: u64, at: u64, (page, password): (u64, u64), lines: &mut Vec<Line>) {
    lines.push(Line::new(d, "WR", &[at, page * 256 + OWNER]));
    lines.push(Line::new(d, "WR", &[at + 1, password]));
}

/// The pair at a place of a domain's Clist: the last six are its data and two
/// services, the others belong to other domains or have died.
fn pair(d: u64, place: u64) -> (u64, u64) {
    let last = PAIRS[d as usize] - 6;
    let next = (d + 1) % 4;
    if place >= last + 4 {
        let e = if place == last + 4 { d } else { next };
        (base(e, SERVICE), entry_password(e))
    } else if place >= last {
        let page = DATA[(place - last) as usize];
        (base(d, page), data_password(d, page))
    } else {
        let page = DATA[(place % 4) as usize];
        match place % 5 {
            0 => (base(d, page), 9999),
            1 => (base(d, 20 + page), data_password(d, page)),
            _ => (base(next, page), data_password(next, page)),
        }
    }
}

/// A load's shares in a hundred lines: RD, WR, LK, CA and RT, EX, other calls,
/// and RD that is refused.
pub type Shares = [u64; 7];

/// RD, WR and LK, and a fifth of the lines CA and RT.
pub const WORKLOAD: Shares = [30, 25, 20, 22, 0, 0, 3];

/// A tenth of the lines CA and RT, and some of every call that keeps the stage.
pub const MIXED: Shares = [33, 26, 23, 10, 4, 1, 3];

/// Write a load of so many lines, the stage included.
pub fn write<O: Write>(shares: &Shares, lines: u64, output: &mut O) -> io::Result<()> {
    let mut steps = Steps::new();
    let stage = stage();
    for i in 0..lines {
        let line = match stage.get(i as usize) {
            Some(line) => line.clone(),
            None => steps.step(shares),
        };
        output.write_all(&line.bytes())?;
        output.write_all(b"\n")?;
    }
    output.flush()
}

/// What the lines behind the stage depend on.
struct Steps {
    random: Random,
    /// How many calls deep each domain is.
    depth: [u64; DOMAINS],
    /// How many of the other calls each domain has made.
    others: [u64; DOMAINS],
    /// The line that must come next.
    next: Option<Line>,
}

impl Steps {
    fn new() -> Self {
        Steps {
            random: Random::new(1),
            depth: [0; DOMAINS],
            others: [0; DOMAINS],
            next: None,
        }
    }

    fn step(&mut self, shares: &Shares) -> Line {
        if let Some(line) = self.next.take() {
            return line;
        }
        let d = self.random.below(4);
        let page = base(d, self.random.pick(&DATA));
        match self.random.weighted(shares) {
            0 => Line::new(d, "RD", &[self.word_of(page)]),
            1 => {
                let address = self.word_of(page);
                Line::new(d, "WR", &[address, self.random.word()])
            }
            2 => {
                let rights = self.random.pick(&[1, 2, 3, 4, 8, 15]);
                Line::new(d, "LK", &[self.word_of(page), rights])
            }
            3 => self.call(d),
            4 => Line::new(d, "EX", &[self.word_of(page)]),
            5 => self.other(d),
            // Refused: pages that are no object's, or another domain's.
            _ => {
                let page = self.random.pick(&[30, 31, 64 + CLIST]);
                let address = base(d, page) * PAGE_WORDS % WORDS;
                Line::new(d, "RD", &[address])
            }
        }
    }

    fn word_of(&mut self, page: u64) -> u64 {
        page * PAGE_WORDS + self.random.below(PAGE_WORDS)
    }

    /// CA up to three calls deep, and RT.
    fn call(&mut self, d: u64) -> Line {
        let deep = &mut self.depth[d as usize];
        if *deep == 3 || (*deep > 0 && self.random.percent(50)) {
            *deep -= 1;
            return Line::new(d, "RT", &[]);
        }
        *deep += 1;
        let own = self.random.percent(50);
        let e = if own { d } else { (d + 1) % 4 };
        let entry = entry(e) + self.random.pick(&[0, 8]);
        // Its own Clist alone still grants what the domain asks for.
        let choice = u64::from(own && self.random.percent(30));
        Line::new(d, "CA", &[entry, choice])
    }

    /// The other calls by turns, so that each change is undone.
    fn other(&mut self, d: u64) -> Line {
        let made = &mut self.others[d as usize];
        *made += 1;
        let [dead, old] = dead(d);
        let (kept, added) = (base(d, DATA[0]), 500 + d);
        match *made % 6 {
            1 => Line::new(d, "CR", &[dead, 1, old, 0]),
            2 => Line::new(d, "DL", &[dead]),
            3 => Line::new(d, "AP", &[kept, added, R]),
            4 => Line::new(d, "DP", &[kept, added]),
            5 => {
                self.next = Some(Line::new(d, "RM", &[0]));
                Line::new(d, "IN", &[0, base(d, 0), home(d)])
            }
            _ => Line::new(d, "GT", &[]),
        }
    }
}
