//! Faults in the image and the store that a call leaves.

use super::*;
use refmonitor::image::{DOMAINS_AT, DOMAIN_BYTES, OBJECT_BYTES};

pub const FAULTS: [Fault; 8] = [
    ("a refusal writes the image", played, |s, d, c| {
        and(s, d, c, |a, _, s| {
            if a == 7 {
                s.image.bytes_mut()[0] ^= 1
            }
        })
    }),
    ("a refusal writes the store", played, |s, d, c| {
        and(s, d, c, |a, _, s| {
            if a == 7 {
                s.store.bytes_mut()[65_535] ^= 1
            }
        })
    }),
    ("WR stores nothing", played, |s, d, c| {
        but(s, d, c, false, !boot(c))
    }),
    ("LO locks nothing", played, |s, d, c| {
        but(s, d, c, matches!(c, Call::Lo { .. }), false)
    }),
    ("slots and locks swapped", played, |s, d, c| {
        and(s, d, c, |a, _, s| {
            if a == 0 {
                s.image.bytes_mut().swap(DOMAINS_AT + 72, DOMAINS_AT + 73)
            }
        })
    }),
    ("two domains swapped", played, |s, d, c| {
        and(s, d, c, |a, _, s| {
            if a == 0 {
                s.image.bytes_mut()[DOMAINS_AT..][..2 * DOMAIN_BYTES].rotate_left(DOMAIN_BYTES)
            }
        })
    }),
    ("a deleted object leaves bytes", played, |s, d, c| {
        and(s, d, c, |a, c, s| {
            if let (0, Call::Dl { .. }) = (a, c) {
                let places = s.image.bytes_mut()[..DOMAINS_AT].chunks_mut(OBJECT_BYTES);
                let mut free = places.filter(|place| place[1] == 0);
                free.next().unwrap()[20] = 1;
            }
        })
    }),
    ("RG looks at all four entries", played, |s, d, c| match c {
        Call::Rg { entries, .. } if (1..4).contains(&entries.len()) => 5,
        _ => real(s, d, c),
    }),
];
