//! Inputs of the program `objects` with its whole output.

use super::{at_end, with_unfinished, Case, Start};
use crate::lines::BOOT;
use crate::objects::HEADER;

/// A name, what stands before the lines, the lines, and what is printed below the
/// header, here parted by blanks.
type Table = (&'static str, Start, &'static [&'static str], &'static str);

/// Four home accounts that are not all the same.
const HOMES: &str = "0,BT,11,12,13,14,6,3,1,128,0,3,0,1,1,6,3,8";

const TABLES: &[Table] = &[
    ("objects: no input", Start::Nothing, &[], ""),
    (
        "objects: before the first boot",
        Start::Nothing,
        &["0,CR,0,1,5,0", "1,CR,32,1,5,3", "0,GT"],
        "",
    ),
    (
        "objects: homes on their accounts",
        Start::Nothing,
        &[HOMES],
        "0,1,0,1,0 32,1,0,1,0 64,1,1,1,0 96,1,3,1,0",
    ),
    (
        "objects: made by rising base",
        Start::Nothing,
        &[HOMES, "0,CR,1,2,21,1", "3,CR,97,31,51,3"],
        "0,1,0,1,0 1,2,1,1,0 32,1,0,1,0 64,1,1,1,0 96,1,3,1,0 97,31,3,1,0",
    ),
    (
        "objects: made by falling base",
        Start::Boot,
        &[
            "3,CR,127,1,5,0",
            "3,CR,100,1,5,1",
            "0,CR,30,2,5,3",
            "0,CR,9,1,5,1",
            "0,CR,2,4,5,2",
        ],
        "0,1,0,1,0 2,4,2,1,0 9,1,1,1,0 30,2,3,1,0 32,1,0,1,0 64,1,0,1,0 96,1,0,1,0 100,1,1,1,0 127,1,0,1,0",
    ),
    (
        "objects: the first, a middle and the last deleted, and others made",
        Start::Nothing,
        &[
            BOOT,
            "0,CR,4,1,24,0",
            "0,CR,8,1,28,0",
            "0,WR,2,1024",
            "0,WR,3,24",
            "0,WR,4,2048",
            "0,WR,5,28",
            "0,DL,4",
            "0,CR,2,2,22,1",
            "0,DL,8",
            "0,CR,6,1,26,3",
            "0,DL,0",
            "0,CR,1,1,21,2",
            "0,CR,0,1,20,2",
        ],
        "0,1,2,1,0 1,1,2,1,0 2,2,1,1,0 6,1,3,1,0 32,1,0,1,0 64,1,0,1,0 96,1,0,1,0",
    ),
    (
        "objects: every object deleted, and a whole estate made",
        Start::Boot,
        &["0,DL,0", "1,DL,32", "2,DL,64", "3,DL,96", "1,CR,32,32,5,3"],
        "32,32,3,1,0",
    ),
    (
        "objects: a second boot, and a refused one",
        Start::Service,
        &[
            HOMES,
            "1,CR,33,1,31,0",
            "0,BT,1,2,3,4,4,4,4,4,0,15,0,15,0,15,3,7",
        ],
        "0,1,0,1,0 32,1,0,1,0 33,1,0,1,0 64,1,1,1,0 96,1,3,1,0",
    ),
    (
        "objects: lines that cannot be read",
        Start::Nothing,
        &[
            HOMES,
            "",
            "0,CR,1,1,21,0\r",
            "0,CR,1,1,21",
            "0,AP,0,0x9,1",
            "0,CR,2,1,22,1",
        ],
        "0,1,0,1,0 2,1,1,1,0 32,1,0,1,0 64,1,1,1,0 96,1,3,1,0",
    ),
];

/// Cases behind the listing, in which domain 0 owns page 1: what is printed of it.
const PAGE_1: &[(&str, &[&str], &str)] = &[
    ("objects: the listing", &[], "1,1,0,1,0"),
    (
        "objects: passwords added",
        &["0,AP,1,22,1", "0,AP,1,23,130"],
        "1,1,0,3,0",
    ),
    (
        "objects: a password too many",
        &["0,AP,1,22,1", "0,AP,1,23,1", "0,AP,1,24,1", "0,AP,1,25,1"],
        "1,1,0,4,0",
    ),
    (
        "objects: passwords dropped",
        &["0,AP,1,22,1", "0,AP,1,23,1", "0,DP,1,22", "0,DP,1,22"],
        "1,1,0,2,0",
    ),
    ("objects: no password left", &["0,DP,1,21"], "1,1,0,0,0"),
    (
        "objects: a registration is no ordinary password",
        &["0,RG,1,22,0,11,64,65,64"],
        "1,1,0,1,1",
    ),
    (
        "objects: a registration beside four passwords",
        &[
            "0,AP,1,22,1",
            "0,AP,1,23,1",
            "0,RG,1,25,0,11,64",
            "0,AP,1,24,1",
        ],
        "1,1,0,4,1",
    ),
    (
        "objects: a registration alone",
        &["0,RG,1,22,0,11,64", "0,DP,1,21"],
        "1,1,0,0,1",
    ),
    (
        "objects: a registration dropped",
        &["0,RG,1,22,0,11,64", "0,DP,1,22"],
        "1,1,0,1,0",
    ),
];

/// Cases whose last line has no line feed, and is passed over.
const UNFINISHED: &[Table] = &[
    ("objects: an unfinished boot", Start::Nothing, &[BOOT], ""),
    (
        "objects: an unfinished creation",
        Start::Nothing,
        &[HOMES, "0,CR,2,1,22,1", "0,CR,1,1,21,1"],
        "0,1,0,1,0 2,1,1,1,0 32,1,0,1,0 64,1,1,1,0 96,1,3,1,0",
    ),
    (
        "objects: an unfinished password",
        Start::Nothing,
        &[HOMES, "0,AP,0,22,1"],
        "0,1,0,1,0 32,1,0,1,0 64,1,1,1,0 96,1,3,1,0",
    ),
];

/// The header and these lines.
fn text(lines: &str) -> String {
    let lines = lines.split_whitespace().map(|line| format!("{line}\n"));
    HEADER.to_string() + &lines.collect::<String>()
}

fn whole((name, start, lines, printed): &Table) -> Case {
    at_end(name, start, lines, text(printed))
}

/// Eight objects in each estate, made by falling base.
fn full() -> Case {
    let (mut lines, mut printed) = (vec![BOOT.to_string()], String::new());
    for d in 0..4 {
        let first = 32 * d;
        printed += &format!("{first},1,0,1,0 ");
        for k in 1..8 {
            lines.push(format!("{d},CR,{},4,7,{d}", first + 4 * (8 - k)));
            printed += &format!("{},4,{d},1,0 ", first + 4 * k);
        }
    }
    let lines: Vec<&str> = lines.iter().map(String::as_str).collect();
    let name = "objects: a full table";
    at_end(name, &Start::Nothing, &lines, text(&printed))
}

/// All of them.
pub fn tables() -> Vec<Case> {
    let all = |cases: &[Table]| cases.iter().map(whole).collect();
    let mut cases = with_unfinished(all(TABLES), all(UNFINISHED));
    for (name, lines, page) in PAGE_1 {
        let printed = format!("0,1,0,1,0 {page} 32,1,0,1,0 64,1,0,1,0 96,1,0,1,0");
        cases.push(at_end(name, &Start::Listing, lines, text(&printed)));
    }
    cases.push(full());
    cases
}
