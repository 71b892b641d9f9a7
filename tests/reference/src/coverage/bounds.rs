//! The bounds of the arguments.

use super::table::NO_LETTERS;
use crate::monitor::WHOLE;

const TOP: u64 = u64::MAX;
const ADDRESS: [u64; 4] = [0, 8191, 8192, TOP];
const PAGE: [u64; 4] = [0, 127, 128, TOP];
const PASSWORD: [u64; 4] = [0, 1, TOP - 1, TOP];
const SLOT: [u64; 4] = [0, 7, 8, TOP];
const HOME: [u64; 4] = [0, 1, 1 << 63, TOP];
const LIMIT: [u64; 4] = [0, 1, 128, 129];
const ACCOUNT: [u64; 4] = [0, 3, 4, TOP];
const SET: [u64; 4] = [0, 15, 16, TOP];

/// The bounds of each call's arguments, on both sides.
pub const BOUNDS: [(&str, &[[u64; 4]]); 14] = [
    (
        "BT",
        &[
            HOME, HOME, HOME, HOME, LIMIT, LIMIT, LIMIT, LIMIT, ACCOUNT, SET, ACCOUNT, SET,
            ACCOUNT, SET, ACCOUNT, SET,
        ],
    ),
    ("RD", &[ADDRESS]),
    ("WR", &[ADDRESS, PASSWORD]),
    ("EX", &[ADDRESS]),
    ("LK", &[ADDRESS, [0, 31, 32, TOP]]),
    ("CR", &[PAGE, [0, 32, 33, TOP], PASSWORD, ACCOUNT]),
    ("DL", &[PAGE]),
    ("AP", &[PAGE, PASSWORD, [0, 159, 160, TOP]]),
    ("DP", &[PAGE, PASSWORD]),
    ("RG", &[PAGE, PASSWORD, PAGE, PASSWORD, ADDRESS]),
    ("IN", &[SLOT, PAGE, PASSWORD]),
    ("RM", &[SLOT]),
    ("LO", &[SLOT]),
    ("CA", &[ADDRESS, [0, 1, 2, TOP]]),
];

/// More bounds: of the domain, about the slot number of the whole lock, and of
/// the limits.
const MORE_BOUNDS: [(&str, usize, u64); 15] = [
    (NO_LETTERS, 0, 0),
    (NO_LETTERS, 0, 3),
    (NO_LETTERS, 0, 4),
    (NO_LETTERS, 0, TOP),
    ("LO", 0, WHOLE - 1),
    ("LO", 0, WHOLE),
    ("LO", 0, WHOLE + 1),
    ("BT", 4, 127),
    ("BT", 5, 127),
    ("BT", 6, 127),
    ("BT", 7, 127),
    ("BT", 4, TOP),
    ("BT", 5, TOP),
    ("BT", 6, TOP),
    ("BT", 7, TOP),
];

/// Every bound as letters, the argument's number from 0, and its value.
pub(super) fn bounds() -> Vec<(&'static str, usize, u64)> {
    let mut all = MORE_BOUNDS.to_vec();
    for (letters, arguments) in BOUNDS {
        for (i, values) in arguments.iter().enumerate() {
            all.extend(values.iter().map(|&value| (letters, i, value)));
        }
    }
    all
}
