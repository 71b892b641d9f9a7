//! Faults with images that do not read.

use super::*;
use refmonitor::image::{decode, DOMAINS_AT, DOMAIN_BYTES, ESTATE_BYTES, OBJECT_BYTES};

/// The words of page 1's second password and of its registration.
fn second_and_registered(slices: &Slices) -> [&[u8]; 2] {
    let object = &slices.image.bytes()[OBJECT_BYTES..2 * OBJECT_BYTES];
    [&object[11..19], &object[38..46]]
}

/// Where the number of slots of domain 3 stands.
const SLOTS: usize = DOMAINS_AT + 3 * DOMAIN_BYTES + 72;

pub const FAULTS: [Fault; 10] = [
    ("every image reads", changed_bytes, |s, d, c| {
        match real(s, d, c) {
            13 => 0,
            answer => answer,
        }
    }),
    (
        "a large page reads",
        changed_bytes,
        |s, d, c| match decode(s.image.bytes()) {
            None if s.image.bytes()[DOMAINS_AT] > 127 => 7,
            _ => real(s, d, c),
        },
    ),
    (
        "a registration has an ordinary password, and reads",
        changed_bytes,
        |s, d, c| match second_and_registered(s) {
            [second, registered] if second == registered => 7,
            _ => real(s, d, c),
        },
    ),
    ("two slots do not read", changed_bytes, |s, d, c| {
        match s.image.bytes()[SLOTS] {
            2 => 13,
            _ => real(s, d, c),
        }
    }),
    ("LO moves the objects", changed_bytes, |s, d, c| {
        and(s, d, c, |a, c, s| {
            if let (0, Call::Lo { .. }) = (a, c) {
                s.image.bytes_mut()[..ESTATE_BYTES].rotate_left(OBJECT_BYTES);
            }
        })
    }),
    (
        "an image that does not read is cleared",
        changed_bytes,
        |s, d, c| {
            and(s, d, c, |a, _, s| {
                if a == 13 {
                    s.image.bytes_mut().fill(0)
                }
            })
        },
    ),
    ("4 before 13", unreadable, |s, d, c| {
        if d > 3 {
            4
        } else {
            real(s, d, c)
        }
    }),
    ("BT reads the image", booted, |s, d, c| {
        match decode(s.image.bytes()) {
            None => 13,
            _ => real(s, d, c),
        }
    }),
    ("a refused BT clears the image", booted, |s, d, c| {
        and(s, d, c, |a, _, s| {
            if a == 5 {
                s.image.bytes_mut().fill(0)
            }
        })
    }),
    ("BT leaves the last word", booted, |s, d, c| {
        let word = s.store.bytes()[65_528..].to_vec();
        let answer = real(s, d, c);
        s.store.bytes_mut()[65_528..].copy_from_slice(&word);
        answer
    }),
];
