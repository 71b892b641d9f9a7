//! Faults in the order of objects and passwords.

use super::*;
use panel::Places;

/// Places of one kind, and one of them.
type Place = (Places, usize);

/// The place of the object with that base.
fn object(slices: &mut Slices, base: u64) -> Option<Place> {
    let (estate, image) = (base as usize / 32, slices.image.bytes_mut());
    let places = Places::of_estate(estate);
    let has =
        |k: &usize| places.is_used(image, *k) && u64::from(places.place(image, *k)[0]) == base;
    Some((places, (0..8).find(has)?))
}

/// The place of a password of the object with that base.
fn password(slices: &mut Slices, base: u64, word: u64) -> Option<Place> {
    let (_, place) = object(slices, base)?;
    let places = Places::of_object(base as usize / 32, place);
    let image = slices.image.bytes_mut();
    let has = |k: &usize| places.place(image, *k)[..8] == word.to_le_bytes();
    Some((places, (0..4).find(has)?))
}

/// What is done to an image, by a place and by how many are used.
type Move = fn(&mut [u8], Place, usize);

/// Moves what stands, after a done call, by the place that it filled or freed.
fn moved(slices: &mut Slices, answer: u64, place: Option<Place>, more: Move) -> u64 {
    if let (0, Some((places, place))) = (answer, place) {
        let image = slices.image.bytes_mut();
        let standing = places.standing(image);
        more(image, (places, place), standing);
    }
    answer
}

/// The call, and more after a CR or AP that is done.
fn making(slices: &mut Slices, domain: u64, call: &Call, create: bool, more: Move) -> u64 {
    let answer = real(slices, domain, call);
    let place = match *call {
        Call::Cr { page, .. } if create && answer == 0 => object(slices, page),
        Call::Ap {
            base,
            password: word,
            ..
        } if !create && answer == 0 => password(slices, base, word),
        _ => None,
    };
    moved(slices, answer, place, more)
}

/// The call, and more after a DL or DP that is done.
fn taking(slices: &mut Slices, domain: u64, call: &Call, delete: bool, more: Move) -> u64 {
    let place = match *call {
        Call::Dl {
            base: base @ 0..=127,
        } if delete => object(slices, base),
        Call::Dp {
            base: base @ 0..=127,
            password: word @ 1..,
        } if !delete => password(slices, base, word),
        _ => None,
    };
    let answer = real(slices, domain, call);
    moved(slices, answer, place, more)
}

/// A free place is left where something stood.
const GAP: Move = |image, (places, place), standing| places.shift(image, standing, place);

/// The last one comes into the place where something stood.
const LAST: Move = |image, (places, place), standing| {
    if place < standing {
        places.shift(image, standing - 1, place)
    }
};

/// What a call writes.
#[rustfmt::skip]
pub const WRITING: [Fault; 10] = [
    ("CR behind all objects", played, |s, d, c| making(s, d, c, true, |image, (places, place), standing| {
        places.shift(image, place, standing - 1)
    })),
    ("CR in front of all objects", played, |s, d, c| making(s, d, c, true, |image, (places, place), _| {
        places.shift(image, place, 0)
    })),
    ("CR leaves a free place", played, |s, d, c| making(s, d, c, true, |image, (places, place), standing| {
        if standing < 8 {
            places.shift(image, standing, place)
        }
    })),
    ("DL leaves a gap", played, |s, d, c| taking(s, d, c, true, GAP)),
    ("DL puts the last object into the gap", played, |s, d, c| taking(s, d, c, true, LAST)),
    ("DP leaves a gap", played, |s, d, c| taking(s, d, c, false, GAP)),
    ("DP puts the newest password into the gap", played, |s, d, c| taking(s, d, c, false, LAST)),
    ("AP in front", played, |s, d, c| making(s, d, c, false, |image, (places, place), _| {
        places.shift(image, place, 0)
    })),
    ("AP before the newest", played, |s, d, c| making(s, d, c, false, |image, (places, place), _| {
        places.shift(image, place, place.saturating_sub(1))
    })),
    ("AP leaves a free place", played, |s, d, c| making(s, d, c, false, |image, (places, place), standing| {
        if standing < 4 {
            places.shift(image, standing, place)
        }
    })),
];

const OBJECTS: Places = Places::of_estate(0);
const PASSWORDS: Places = Places::of_object(0, 1);

/// The call; an image that passes the test reads, whatever else it is.
fn lenient(slices: &mut Slices, domain: u64, call: &Call, test: fn(&mut [u8]) -> bool) -> u64 {
    match test(slices.image.bytes_mut()) {
        true => 7,
        false => real(slices, domain, call),
    }
}

/// Whether one place is free and another used.
fn gap(image: &mut [u8], places: Places, free: usize, used: usize) -> bool {
    !places.is_used(image, free) && places.is_used(image, used)
}

/// What reads.
#[rustfmt::skip]
pub const READING: [Fault; 8] = [
    ("falling bases read", unreadable, |s, d, c| lenient(s, d, c, |image| image[66] > 0 && image[0] > image[65])),
    ("equal bases read", unreadable, |s, d, c| lenient(s, d, c, |image| image[66] > 0 && image[0] == image[65])),
    ("a free place before an object reads", unreadable, |s, d, c| lenient(s, d, c, |image| gap(image, OBJECTS, 0, 1))),
    ("a free place between objects reads", unreadable, |s, d, c| lenient(s, d, c, |image| gap(image, OBJECTS, 1, 2))),
    ("a free place before a password reads", unreadable, |s, d, c| lenient(s, d, c, |image| gap(image, PASSWORDS, 0, 1))),
    ("a free place between passwords reads", unreadable, |s, d, c| lenient(s, d, c, |image| gap(image, PASSWORDS, 1, 2))),
    ("places do not matter", played_in_other_places, |s, d, c| match real(s, d, c) {
        13 => 7,
        answer => answer,
    }),
    ("an image is put in order", played_in_other_places, |s, d, c| and(s, d, c, |a, _, s| {
        if a == 13 {
            OBJECTS.shift(s.image.bytes_mut(), 0, 1)
        }
    })),
];
