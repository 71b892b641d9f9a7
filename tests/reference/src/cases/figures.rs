//! Inputs of the program `accounts` with its whole output.

use super::{at_end, with_unfinished, Case, Start};
use crate::figures::text;

/// A name, what stands before the lines, the lines, and the pages of the
/// accounts.
type Figured = (&'static str, Start, &'static [&'static str], [u64; 4]);

const TIGHT: &str = "0,BT,11,12,13,14,6,3,1,128,0,3,0,1,1,6,3,8";

const FIGURED: &[Figured] = &[
    ("figures: no input", Start::Nothing, &[], [0, 0, 0, 0]),
    (
        "figures: before the first boot",
        Start::Nothing,
        &["0,CR,0,1,5,0", "1,CR,32,1,5,3", "0,GT"],
        [0, 0, 0, 0],
    ),
    ("figures: the listing", Start::Listing, &[], [5, 0, 0, 0]),
    (
        "figures: homes alone",
        Start::Nothing,
        &[TIGHT],
        [2, 1, 0, 1],
    ),
    (
        "figures: accounts of several domains",
        Start::Nothing,
        &[
            TIGHT,
            "0,CR,1,3,21,0",
            "1,CR,33,1,31,0",
            "0,CR,4,1,22,1",
            "2,CR,65,1,41,1",
            "2,CR,66,1,42,2",
            "3,CR,97,31,51,3",
        ],
        [6, 3, 1, 32],
    ),
    (
        "figures: refused creations",
        Start::Nothing,
        &[
            TIGHT,
            "0,CR,1,5,21,0",
            "0,CR,1,1,21,2",
            "0,CR,0,1,21,0",
            "0,CR,32,1,21,0",
            "0,CR,1,0,21,0",
            "0,CR,1,1,21,4",
            "4,CR,1,1,21,0",
        ],
        [2, 1, 0, 1],
    ),
    (
        "figures: deletions",
        Start::Nothing,
        &[
            TIGHT,
            "0,CR,1,4,21,0",
            "0,CR,5,2,22,1",
            "0,WR,2,256",
            "0,WR,3,21",
            "0,DL,1",
            "0,DL,1",
            "0,DL,5",
        ],
        [2, 3, 0, 1],
    ),
    (
        "figures: a deletion by a stranger",
        Start::Nothing,
        &[
            TIGHT,
            "0,CR,1,2,21,1",
            "1,CR,33,3,31,0",
            "1,WR,2050,256",
            "1,WR,2051,21",
            "1,DL,1",
        ],
        [5, 1, 0, 1],
    ),
    (
        "figures: every object deleted",
        Start::Nothing,
        &[TIGHT, "0,DL,0", "1,DL,32", "2,DL,64", "3,DL,96"],
        [0, 0, 0, 0],
    ),
    (
        "figures: a refused boot",
        Start::Nothing,
        &[
            TIGHT,
            "0,CR,1,2,21,1",
            "0,BT,1,2,3,4,4,4,4,4,0,15,0,15,0,15,3,7",
        ],
        [2, 3, 0, 1],
    ),
    (
        "figures: a second boot",
        Start::Nothing,
        &[
            TIGHT,
            "0,CR,1,2,21,1",
            "1,BT,1,2,3,4,4,4,4,4,2,15,0,15,2,15,3,8",
        ],
        [1, 0, 2, 1],
    ),
    (
        "figures: all 128 pages on one account",
        Start::Nothing,
        &[
            "0,BT,1,2,3,4,1,1,128,1,2,4,2,4,2,4,2,4",
            "0,CR,1,31,5,2",
            "1,CR,33,31,5,2",
            "2,CR,65,31,5,2",
            "3,CR,97,31,5,2",
        ],
        [0, 0, 128, 0],
    ),
    (
        "figures: lines that cannot be read",
        Start::Nothing,
        &[
            TIGHT,
            "",
            "0,CR,1,1,21,0\r",
            "0,CR,1,1,21",
            "0,CR,1,1,21,00",
            "0,CR,1,1,21,0,0",
            "0,cr,1,1,21,0",
            "0,BT,11,12,13,14",
            "0,CR,1,1,21,0",
        ],
        [3, 1, 0, 1],
    ),
];

/// Cases whose last line has no line feed, and is passed over.
const UNFINISHED: &[Figured] = &[
    (
        "figures: an unfinished boot",
        Start::Nothing,
        &[TIGHT],
        [0, 0, 0, 0],
    ),
    (
        "figures: an unfinished creation",
        Start::Listing,
        &["0,CR,2,1,22,1", "0,CR,3,1,23,1"],
        [5, 1, 0, 0],
    ),
    (
        "figures: an unfinished deletion",
        Start::Listing,
        &["0,DL,1"],
        [5, 0, 0, 0],
    ),
];

fn whole((name, start, lines, figures): &Figured) -> Case {
    at_end(name, start, lines, text(*figures))
}

/// All of them.
pub fn figures() -> Vec<Case> {
    let all = |cases: &[Figured]| cases.iter().map(whole).collect();
    with_unfinished(all(FIGURED), all(UNFINISHED))
}
