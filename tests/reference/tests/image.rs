//! The image by docs/IMAGE.md: a sample written by hand, each bound broken by
//! itself, and objects and passwords in other places.

use refmonitor::image::{decode, encode, IMAGE_BYTES};
use refmonitor::monitor::*;

/// The two objects of domain 1's estate, and its first free place.
const OBJECT: usize = 520;
const NEXT: usize = OBJECT + 65;
const FREE: usize = NEXT + 65;

/// Domain 2, and its saved frames 0 and 1.
const DOMAIN: usize = 2080 + 2 * 376;
const SAVED: usize = DOMAIN + 75;
const UNSAVED: usize = DOMAIN + 150;

/// The limits of the accounts, and the sets of the domains.
const LIMIT: usize = 3584;
const SET: usize = 3588;

/// Bytes at an offset.
type Piece<'a> = (usize, &'a [u8]);

fn image(pieces: &[Piece]) -> Vec<u8> {
    let mut image = vec![0; IMAGE_BYTES];
    for (at, bytes) in pieces {
        image[*at..at + bytes.len()].copy_from_slice(bytes);
    }
    image
}

/// Pages 40 and 41, with two passwords and a registration, on account 3; pages 42
/// to 63 without any. Domain 2 has two slots and a saved frame with eight.
/// Account 3 has a limit of 1, less than it is charged, and domain 0 may charge
/// accounts 1 and 3.
fn sample() -> Vec<u8> {
    image(&[
        (OBJECT, &[40, 2, 7, 1, 0, 0, 0, 0, 0, 0, 15]),
        (OBJECT + 11, &[9, 0, 0, 0, 0, 0, 0, 0, 144]),
        (OBJECT + 38, &[8, 0, 0, 0, 0, 0, 0, 0, 127, 3]),
        (OBJECT + 55, &[2, 0, 10, 127, 10]),
        (OBJECT + 64, &[3]),
        (NEXT, &[42, 22]),
        (DOMAIN, &[127, 0, 0, 0, 0, 0, 0, 0, 1, 5]),
        (DOMAIN + 72, &[2, 1, 1]),
        (SAVED + 63, &[6, 1]),
        (SAVED + 72, &[8, 8]),
        (DOMAIN + 375, &[1]),
        (LIMIT, &[128, 0, 0, 1]),
        (SET, &[10, 0, 0, 15]),
    ])
}

/// The sample in the monitor's own data.
fn sample_monitor() -> Monitor {
    let mut monitor = Monitor::new();
    let mut first = Object::new(40, 2, 263, 3);
    first.passwords.push(Password { word: 9, mode: 144 });
    first.registration = Some(Registration {
        password: 8,
        list: Capability {
            page: 127,
            password: 3,
        },
        entries: vec![2560, 2687],
    });
    let mut second = Object::new(42, 22, 1, 0);
    second.passwords.clear();
    monitor.objects = vec![first, second];
    let slot = |page, password| Capability { page, password };
    let zero = slot(0, 0);
    monitor.domains[2].now = Frame {
        slots: vec![slot(127, 1 << 56), slot(5, 0)],
        locked: 1,
        whole: true,
    };
    monitor.domains[2].saved = vec![Frame {
        slots: vec![zero, zero, zero, zero, zero, zero, zero, slot(6, 1)],
        locked: 8,
        whole: false,
    }];
    monitor.limits = [128, 0, 0, 1];
    monitor.sets = [10, 0, 0, 15];
    monitor
}

#[test]
fn a_sample_by_hand() {
    let mut monitor = sample_monitor();
    assert!(monitor.is_sound());
    assert_eq!(decode(&sample()), Some(monitor.clone()));
    assert_eq!(encode(&monitor), sample());
    // In whatever order the monitor's own data hold the objects.
    monitor.objects.reverse();
    assert_eq!(encode(&monitor), sample());
}

/// An offset of the sample, some values with which it reads, and some with
/// which it does not.
type Bound = (usize, &'static [u8], &'static [u8]);

const BOUNDS: [Bound; 57] = [
    // Base and pages; pages 42 to 63 are the other object's.
    (OBJECT, &[], &[39]),
    (OBJECT + 1, &[], &[0, 1, 3]),
    (NEXT, &[], &[0, 31, 39, 40, 41, 43]),
    (NEXT + 1, &[21], &[0, 23, 255]),
    // Free places of objects.
    (FREE, &[], &[1, 63]),
    (FREE + 2, &[], &[1]),
    (FREE + 63, &[], &[1]),
    (FREE + 64, &[], &[1, 3]),
    (FREE + 10, &[], &[15]),
    (0, &[], &[1]),
    (1, &[1, 32], &[33]),
    (FREE + 1, &[], &[1]),
    (2079, &[], &[1]),
    // Page 0 would be an object behind a free place.
    (66, &[], &[1]),
    (456, &[], &[1]),
    // Accounts.
    (OBJECT + 64, &[0, 2], &[4, 7, 255]),
    (NEXT + 64, &[3], &[4, 128]),
    (LIMIT, &[0, 1, 127], &[129, 255]),
    (LIMIT + 1, &[1, 128], &[129]),
    (LIMIT + 3, &[0, 128], &[129, 255]),
    (SET, &[0, 15], &[16, 26, 255]),
    (SET + 1, &[1, 15], &[16, 128]),
    (SET + 2, &[8], &[32]),
    (SET + 3, &[0, 14], &[16, 31, 255]),
    // Passwords and modes.
    (OBJECT + 3, &[0], &[]),
    (OBJECT + 9, &[255], &[]),
    (
        OBJECT + 10,
        &[1, 143, 159],
        &[0, 16, 31, 32, 47, 64, 128, 160, 255],
    ),
    (OBJECT + 19, &[], &[0, 16]),
    (OBJECT + 2, &[8, 9], &[]),
    (OBJECT + 11, &[10], &[0, 8]),
    (OBJECT + 20, &[], &[5]),
    (OBJECT + 28, &[], &[1]),
    (OBJECT + 37, &[], &[1]),
    // The registration.
    (OBJECT + 38, &[], &[0, 9]),
    (OBJECT + 45, &[1], &[]),
    (OBJECT + 46, &[0], &[128]),
    (OBJECT + 47, &[0], &[]),
    (OBJECT + 54, &[255], &[]),
    (OBJECT + 55, &[], &[0, 1, 3, 5]),
    (OBJECT + 57, &[], &[9, 11]),
    (OBJECT + 58, &[126], &[128]),
    (OBJECT + 59, &[], &[11]),
    (OBJECT + 60, &[], &[1]),
    (OBJECT + 63, &[], &[1]),
    (NEXT + 46, &[], &[1]),
    (NEXT + 55, &[], &[1]),
    // The frame in force.
    (DOMAIN, &[], &[128]),
    (DOMAIN + 1, &[9], &[]),
    (DOMAIN + 18, &[], &[1]),
    (DOMAIN + 72, &[3], &[1, 9]),
    (DOMAIN + 73, &[2], &[3]),
    (DOMAIN + 74, &[], &[2]),
    // Saved frames, and the depth.
    (SAVED + 63, &[], &[128]),
    (SAVED + 73, &[], &[9]),
    (SAVED + 74, &[], &[255]),
    (UNSAVED + 74, &[], &[1]),
    (DOMAIN + 375, &[2], &[0, 5]),
];

/// A changed image reads or not; if it does, it is another state, and is
/// written as itself.
fn changed(image: &[u8], what: &str, reads: bool) {
    assert_ne!(image, sample(), "no change: {what}");
    let state = decode(image);
    assert_eq!(state.is_some(), reads, "{what}");
    if let Some(state) = state {
        assert_eq!(encode(&state), image, "{what}");
        assert!(state.is_sound(), "{what}");
        assert_ne!(state, sample_monitor(), "{what}");
    }
}

#[test]
fn each_bound_by_itself() {
    for (at, reads, does_not) in BOUNDS {
        for (bytes, reads) in [(reads, true), (does_not, false)] {
            for &byte in bytes {
                let mut image = sample();
                image[at] = byte;
                changed(&image, &format!("{byte} at {at}"), reads);
            }
        }
    }
}

/// What is done to the sample, and whether it reads then.
type Moved = (&'static str, fn(&mut [u8]), bool);

/// The places of the object's passwords.
fn passwords(image: &mut [u8]) -> &mut [u8] {
    &mut image[OBJECT + 2..OBJECT + 38]
}

/// Objects stand by rising base in the first places, and passwords in the first
/// places; which password is the older one is open.
#[rustfmt::skip]
const MOVED: [Moved; 9] = [
    ("bases fall", |image| image[OBJECT..FREE].rotate_left(65), false),
    ("bases are equal", |image| image.copy_within(OBJECT..NEXT, NEXT), false),
    ("the first place is free", |image| image[OBJECT..FREE + 65].rotate_right(65), false),
    ("a place between is free", |image| image[NEXT..FREE + 65].rotate_right(65), false),
    ("the last place is used", |image| image[NEXT..OBJECT + 520].rotate_left(65), false),
    ("passwords in the other order", |image| passwords(image)[..18].rotate_left(9), true),
    ("a password in the third place", |image| passwords(image)[9..27].rotate_left(9), false),
    ("the first password's place is free", |image| passwords(image).rotate_right(9), false),
    ("a password in the last place", |image| passwords(image)[9..].rotate_left(9), false),
];

#[test]
fn other_places() {
    for (what, change, reads) in MOVED {
        let mut image = sample();
        change(&mut image);
        changed(&image, what, reads);
    }
}
