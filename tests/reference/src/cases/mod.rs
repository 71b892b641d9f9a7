//! Inputs whose whole output is written out: the paper's listing, its edges
//! and its traps, the readings, the ends of Clists, bans, the whole lock,
//! accounts, and lines that cannot be read; and inputs of the programs
//! `accounts` and `objects`.

mod accounts;
mod banned;
mod bans;
mod boots;
mod edges;
mod ends;
mod figures;
mod lists;
mod objects;
mod passwords;
mod ranges;
mod slots;
mod tables;
mod unreadable;
mod whole_lock;

pub use figures::figures;
pub use tables::tables;
pub use unreadable::unreadable;

use crate::lines::{BOOT, HEADER};

/// The paper's listing, to the byte.
pub const LISTING: &str = "\
0,BT,11,12,13,14,128,128,128,128,0,15,0,15,0,15,0,15
0,RD,0
1,RD,2048
0,RD,2048
0,CR,1,1,21,0
0,RD,64
0,WR,2,256
0,WR,3,21
0,LK,64,3
0,RT
0,GT
";

/// The whole output for the listing.
pub const ANSWERS: &str = "\
line,answer,value
1,0,0
2,0,15
3,0,8207
4,7,0
5,0,0
6,7,0
7,0,0
8,0,0
9,0,2
10,12,0
11,0,1,0,0,0
";

/// Domain 1 registers an entry in its page 33; domain 0 gets the password.
const SERVICE: [(&str, &str); 6] = [
    ("1,CR,33,1,31,0", "0,0"),
    ("1,WR,2050,8448", "0,0"),
    ("1,WR,2051,31", "0,0"),
    ("1,RG,33,32,32,12,2112", "0,0"),
    ("0,WR,4,8448", "0,0"),
    ("0,WR,5,32", "0,0"),
];

/// An input and its whole output.
#[derive(Clone, Debug)]
pub struct Case {
    pub name: String,
    pub input: Vec<u8>,
    pub output: Vec<u8>,
}

impl Case {
    fn new(name: &str) -> Self {
        Case {
            name: name.to_string(),
            input: Vec::new(),
            output: HEADER.into(),
        }
    }

    /// One line more; the answer is what follows the number.
    fn line(&mut self, line: &[u8], answer: &str) {
        self.input.extend_from_slice(line);
        self.input.push(b'\n');
        self.answer(answer);
    }

    fn answer(&mut self, answer: &str) {
        // The header stands for the line number 0.
        let number = self.output.iter().filter(|&&b| b == b'\n').count();
        self.output.extend(format!("{number},{answer}\n").bytes());
    }
}

/// What stands before a case's own calls.
enum Start {
    Nothing,
    Boot,
    Listing,
    /// The listing and the registered entry.
    Service,
}

/// A case as it is written down: its name, what stands before it, and its
/// lines, each with its answer and value.
type Written = (&'static str, Start, &'static [(&'static str, &'static str)]);

impl Start {
    /// The lines of the start and their answers.
    fn case(&self, name: &str) -> Case {
        let mut case = Case::new(name);
        match self {
            Start::Nothing => {}
            Start::Boot => case.line(BOOT.as_bytes(), "0,0"),
            Start::Listing | Start::Service => {
                case.input = LISTING.into();
                case.output = ANSWERS.into();
            }
        }
        if matches!(self, Start::Service) {
            for (line, answer) in SERVICE {
                case.line(line.as_bytes(), answer);
            }
        }
        case
    }
}

/// The case with its whole input and output.
fn whole((name, start, calls): &Written) -> Case {
    let mut case = start.case(name);
    for (line, answer) in *calls {
        case.line(line.as_bytes(), answer);
    }
    case
}

/// A case of a program that prints at the end alone: its own lines, and the whole
/// output.
fn at_end(name: &str, start: &Start, lines: &[&str], output: String) -> Case {
    let mut case = start.case(name);
    for line in lines {
        case.input.extend_from_slice(line.as_bytes());
        case.input.push(b'\n');
    }
    case.output = output.into();
    case
}

/// The cases, then others whose last line loses its line feed, and is passed over.
fn with_unfinished(mut cases: Vec<Case>, mut unfinished: Vec<Case>) -> Vec<Case> {
    for case in &mut unfinished {
        case.input.pop();
    }
    cases.append(&mut unfinished);
    cases
}

/// The listing, the cases around the edges, the traps, the readings, the whole
/// lock, the ends of Clists, the bans and the accounts.
pub fn paper() -> Vec<Case> {
    let groups = [
        edges::EDGES,
        edges::TRAPS,
        boots::BOOTS,
        objects::OBJECTS,
        passwords::PASSWORDS,
        slots::SLOTS,
        whole_lock::WHOLE_LOCK,
        objects::ESTATES,
        ranges::RANGES,
        ends::ENDS,
        bans::BANS,
        banned::BANNED,
        accounts::ACCOUNTS,
        accounts::BOOT_ACCOUNTS,
    ];
    let written = groups.into_iter().flatten().map(whole);
    written.chain(lists::lists()).collect()
}

/// All cases of the call program.
pub fn all() -> Vec<Case> {
    let mut cases = paper();
    cases.extend(unreadable());
    cases
}
