//! The listing, its edges and its traps.

use super::{Start, Written};

pub(super) const EDGES: &[Written] = &[
    ("no input", Start::Nothing, &[]),
    ("the listing", Start::Listing, &[]),
    (
        "edge: addresses",
        Start::Listing,
        &[("0,RD,8192", "5,0"), ("0,RD,8191", "7,0")],
    ),
    (
        "edge: the end of an estate",
        Start::Listing,
        &[("0,CR,31,2,9,0", "9,0"), ("0,CR,31,1,9,0", "0,0")],
    ),
    (
        "edge: a locked slot",
        Start::Listing,
        &[("0,LO,0", "0,0"), ("0,RM,0", "6,0")],
    ),
    (
        "edge: a negative pair",
        Start::Listing,
        &[
            ("0,AP,1,22,130", "0,0"),
            ("0,WR,4,256", "0,0"),
            ("0,WR,5,22", "0,0"),
            // Behind the pair that grants, and ahead of it.
            ("0,WR,64,5", "7,0"),
            ("0,WR,3,22", "0,0"),
            ("0,WR,5,21", "0,0"),
            ("0,WR,64,5", "7,0"),
            ("0,RD,64", "0,0"),
        ],
    ),
    (
        "edge: a merging call",
        Start::Service,
        &[
            ("0,CA,2113,0", "8,0"),
            ("0,CA,2112,0", "0,2112"),
            ("0,RD,2048", "0,8207"),
            ("0,GT", "0,2,0,0,0,32"),
            ("0,RT", "0,0"),
            ("0,RD,2048", "7,0"),
        ],
    ),
    (
        "edge: an emptying call",
        Start::Service,
        &[
            ("0,CA,2112,1", "0,2112"),
            ("0,RD,0", "7,0"),
            ("0,GT", "0,1,0,0,32"),
            ("0,RT", "0,0"),
            ("0,RD,0", "0,15"),
        ],
    ),
];

pub(super) const TRAPS: &[Written] = &[
    (
        "trap: rights from the hint",
        Start::Listing,
        &[
            // A hint of 15 on a read password gives no write; a hint of 0 takes nothing.
            ("0,AP,1,22,1", "0,0"),
            ("0,WR,2,271", "0,0"),
            ("0,WR,3,22", "0,0"),
            ("0,WR,64,5", "7,0"),
            ("0,RD,64", "0,0"),
            ("0,WR,2,256", "0,0"),
            ("0,RD,64", "0,0"),
            ("0,WR,3,21", "0,0"),
            ("0,WR,64,5", "0,0"),
        ],
    ),
    (
        "trap: rights of two pairs joined",
        Start::Listing,
        &[
            ("0,AP,1,22,1", "0,0"),
            ("0,AP,1,23,2", "0,0"),
            ("0,WR,3,22", "0,0"),
            ("0,WR,4,256", "0,0"),
            ("0,WR,5,23", "0,0"),
            ("0,LK,64,1", "0,2"),
            ("0,LK,64,2", "0,4"),
            ("0,LK,64,3", "7,0"),
        ],
    ),
    (
        "trap: a missing object told from a missing right",
        Start::Listing,
        &[
            // No object, no right, no pair: the same refusal.
            ("0,RD,128", "7,0"),
            ("0,RD,2048", "7,0"),
            ("0,DL,2", "7,0"),
            ("0,DL,32", "7,0"),
            ("0,AP,2,5,1", "7,0"),
            ("0,AP,32,5,1", "7,0"),
            ("0,CA,128,0", "7,0"),
            ("0,CA,2048,0", "7,0"),
        ],
    ),
    (
        "trap: slots after a refused call",
        Start::Service,
        &[
            ("0,CA,2113,0", "8,0"),
            ("0,GT", "0,1,0,0,0"),
            ("0,RD,2048", "7,0"),
            ("0,IN,3,32,12", "12,0"),
            ("0,GT", "0,1,0,0,0"),
            ("0,RT", "12,0"),
        ],
    ),
    (
        "trap: a Clist merged in ahead of a locked slot",
        Start::Service,
        &[
            ("0,IN,1,64,13", "0,0"),
            ("0,IN,2,96,14", "0,0"),
            ("0,LO,1", "0,0"),
            ("0,CA,2112,0", "0,2112"),
            ("0,GT", "0,4,2,0,0,64,32,96"),
            ("0,RT", "0,0"),
            ("0,GT", "0,3,2,0,0,64,96"),
            ("0,LO,2", "0,0"),
            ("0,CA,2112,0", "0,2112"),
            ("0,GT", "0,4,3,0,0,64,96,32"),
        ],
    ),
];
