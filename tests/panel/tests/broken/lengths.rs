//! Faults at wrong lengths.

use super::*;

pub const FAULTS: [Fault; 4] = [
    (
        "values zeroed at a wrong length",
        wrong_lengths,
        |s, d, c| {
            and(s, d, c, |a, _, s| {
                if a == 13 {
                    s.values.bytes_mut().fill(0)
                }
            })
        },
    ),
    ("13 before 2", wrong_lengths, |s, d, c| {
        match s.values.bytes().len() {
            88 => real(s, d, c),
            _ => 13,
        }
    }),
    ("4 before 2", wrong_lengths, |s, d, c| {
        if d > 3 {
            4
        } else {
            real(s, d, c)
        }
    }),
    (
        "the image cleared at a wrong length",
        wrong_lengths,
        |s, d, c| {
            and(s, d, c, |a, _, s| {
                if a == 13 {
                    s.image.bytes_mut().fill(0)
                }
            })
        },
    ),
];
