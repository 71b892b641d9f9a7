//! The order of objects and passwords: what comes and goes in front of others,
//! between them and behind them.

use super::*;
use crate::coverage::gaps::{stand_of, Dropped, Stand};

/// The other objects of the estate, by base.
fn others(monitor: &Monitor, base: u64) -> Vec<u64> {
    let estate = |base: u64| base / ESTATE_PAGES;
    let bases = monitor.by_base().into_iter().map(|o| o.base);
    bases
        .filter(|&b| estate(b) == estate(base) && b != base)
        .collect()
}

/// The stand of a base among those of the estate's other objects.
fn stand(monitor: &Monitor, base: u64) -> Option<Stand> {
    let others = others(monitor, base);
    let place = others.iter().filter(|&&b| b < base).count();
    Stand::among(place, others.len())
}

/// Where a made object stands; in an estate that was full, or in any.
fn made(s: &Seen, wanted: Stand, full: bool) -> bool {
    let (Call::Cr { page, .. }, Some(d)) = (s.call, s.d()) else {
        return false;
    };
    s.done() && stand(s.before, *page) == Some(wanted) && (!full || s.gaps.was_full(d))
}

/// Where a deleted object stood; in a full estate, or in any.
fn deleted(s: &Seen, wanted: Stand, full: bool) -> bool {
    let Call::Dl { base } = *s.call else {
        return false;
    };
    let (stood, others) = (stand(s.before, base), others(s.before, base).len());
    s.done() && stood == Some(wanted) && (!full || others + 1 == MAX_OBJECTS)
}

/// Where a dropped password stood; among four, or any.
fn dropped(s: &Seen, wanted: Stand, full: bool) -> bool {
    let (Call::Dp { base, password }, Some(object)) = (s.call, s.owned()) else {
        return false;
    };
    let many = !full || object.passwords.len() == MAX_PASSWORDS;
    s.done() && many && stand_of(s.before, *base, *password) == Some(wanted)
}

/// A password added to an object with others, from which one was dropped.
fn added(s: &Seen, test: impl Fn(&Object, u64, &Dropped) -> bool) -> bool {
    let (Call::Ap { base, password, .. }, Some(object)) = (s.call, s.owned()) else {
        return false;
    };
    let mut dropped = s.gaps.dropped(*base);
    s.done() && !object.passwords.is_empty() && dropped.any(|d| test(object, *password, d))
}

/// A password added behind the drop of one that stood so, and before any other.
fn added_behind(s: &Seen, wanted: Stand) -> bool {
    added(s, |_, _, d| d.stand == wanted && !d.filled)
}

/// The newest password of an object to which another one is added, and that one.
fn newest(s: &Seen) -> Option<(u64, u64)> {
    let (Call::Ap { password, .. }, Some(object), true) = (s.call, s.owned(), s.done()) else {
        return None;
    };
    Some((object.passwords.last()?.word, *password))
}

#[rustfmt::skip]
pub const ORDER: &[Situation] = &[
    ("CR in front of the estate's objects", |s| made(s, Stand::First, false)),
    ("CR between two objects", |s| made(s, Stand::Middle, false)),
    ("CR behind the estate's objects", |s| made(s, Stand::Last, false)),
    ("CR in front, in an estate that was full", |s| made(s, Stand::First, true)),
    ("CR between two, in an estate that was full", |s| made(s, Stand::Middle, true)),
    ("CR behind, in an estate that was full", |s| made(s, Stand::Last, true)),
    ("DL of the estate's first object", |s| deleted(s, Stand::First, false)),
    ("DL of an object between two", |s| deleted(s, Stand::Middle, false)),
    ("DL of the estate's last object", |s| deleted(s, Stand::Last, false)),
    ("DL of the first of eight objects", |s| deleted(s, Stand::First, true)),
    ("DL between, of eight objects", |s| deleted(s, Stand::Middle, true)),
    ("DL of the last of eight objects", |s| deleted(s, Stand::Last, true)),
    ("DP of the oldest password", |s| dropped(s, Stand::First, false)),
    ("DP of a password between two", |s| dropped(s, Stand::Middle, false)),
    ("DP of the newest password", |s| dropped(s, Stand::Last, false)),
    ("DP of the oldest of four", |s| dropped(s, Stand::First, true)),
    ("DP between, of four", |s| dropped(s, Stand::Middle, true)),
    ("DP of the newest of four", |s| dropped(s, Stand::Last, true)),
    ("AP behind a drop of the oldest", |s| added_behind(s, Stand::First)),
    ("AP behind a drop between two", |s| added_behind(s, Stand::Middle)),
    ("AP behind a drop of the newest", |s| added_behind(s, Stand::Last)),
    ("AP of a dropped password", |s| added(s, |_, word, d| d.word == word)),
    ("AP of the fourth password behind a drop", |s| added(s, |o, _, d| {
        o.passwords.len() == 3 && d.stand != Stand::Last && !d.filled
    })),
    ("AP of a password below the newest", |s| newest(s).is_some_and(|(last, new)| new < last)),
    ("AP of a password above the newest", |s| newest(s).is_some_and(|(last, new)| new > last)),
];
