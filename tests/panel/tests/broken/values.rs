//! Faults in the values, and bytes written beside the slices.

use super::*;
use panel::UNTOUCHED;

pub const FAULTS: [Fault; 6] = [
    ("values stay on a refusal", played, |s, d, c| {
        and(s, d, c, |a, _, s| {
            if a > 0 {
                s.values.bytes_mut().fill(UNTOUCHED)
            }
        })
    }),
    ("a byte behind GT's fields", played, |s, d, c| {
        and(s, d, c, |a, c, s| {
            if a == 0 && *c == Call::Gt {
                s.values.bytes_mut()[87] = 1
            }
        })
    }),
    ("a value on a refusal", played, |s, d, c| {
        and(s, d, c, |a, _, s| {
            if a > 0 {
                s.values.bytes_mut()[0] = 1
            }
        })
    }),
    ("the highest byte first", played, |s, d, c| {
        and(s, d, c, |_, _, s| {
            s.values.bytes_mut().chunks_mut(8).for_each(<[u8]>::reverse)
        })
    }),
    ("a byte beyond the values", played, |s, d, c| {
        and(s, d, c, |_, _, s| s.values.guards_mut()[1][0] = 0)
    }),
    ("a byte before the image", played, |s, d, c| {
        and(s, d, c, |_, _, s| {
            *s.image.guards_mut()[0].last_mut().unwrap() = 0
        })
    }),
];
