//! Bans that do not stop every call, or that stop one from a place where they
//! do not count.

use super::bans::FIRST;
use super::ends::without_ends;
use super::*;

/// An address of the object that the call wants rights on, and those rights.
fn wanted(c: &Call) -> Option<(u64, u64)> {
    match *c {
        Call::Rd { address } => Some((address, R)),
        Call::Wr { address, .. } => Some((address, W)),
        Call::Ex { address } => Some((address, X)),
        Call::Ca { address, .. } => Some((address, P)),
        Call::Dl { base } => Some((base * PAGE_WORDS, D)),
        Call::Ap { base, .. } | Call::Dp { base, .. } | Call::Rg { base, .. } => {
            Some((base * PAGE_WORDS, OWNER))
        }
        _ => None,
    }
}

/// The state without negative passwords.
fn without_bans(m: &Monitor) -> Monitor {
    let mut copy = m.clone();
    for object in &mut copy.objects {
        object.passwords.retain(|p| p.mode & NOT == 0);
    }
    copy
}

/// The answer as it should be; where a ban behind a pair that grants refuses, the
/// one without bans.
fn as_before(m: &mut Monitor, d: u64, c: &Call) -> Outcome {
    let outcome = m.call(d, c);
    if outcome != Err(Refusal::NotGranted) {
        return outcome;
    }
    let (at, rights) = wanted(c).ok_or(Refusal::NotGranted)?;
    FIRST.judge(m, d, at, rights)?;
    without_bans(m).call(d, c)
}

/// The answer as it should be, but refused where it would be without ends.
fn with_hidden_bans(m: &mut Monitor, d: u64, c: &Call) -> Outcome {
    if without_ends(m).call(d, c) == Err(Refusal::NotGranted) {
        return Err(Refusal::NotGranted);
    }
    m.call(d, c)
}

pub(super) const BAN_CALLS: &[Broken] = &[
    ("a ban behind does not stop RD", |m, _, d, c| match c {
        Call::Rd { .. } => as_before(m, d, c),
        _ => m.call(d, c),
    }),
    ("a ban behind does not stop WR", |m, _, d, c| match c {
        Call::Wr { .. } => as_before(m, d, c),
        _ => m.call(d, c),
    }),
    ("a ban behind does not stop EX", |m, _, d, c| match c {
        Call::Ex { .. } => as_before(m, d, c),
        _ => m.call(d, c),
    }),
    ("a ban behind does not stop CA", |m, _, d, c| match c {
        Call::Ca { .. } => as_before(m, d, c),
        _ => m.call(d, c),
    }),
    ("a ban behind does not stop DL", |m, _, d, c| match c {
        Call::Dl { .. } => as_before(m, d, c),
        _ => m.call(d, c),
    }),
    ("a ban behind does not stop AP", |m, _, d, c| match c {
        Call::Ap { .. } => as_before(m, d, c),
        _ => m.call(d, c),
    }),
    ("a ban behind does not stop DP", |m, _, d, c| match c {
        Call::Dp { .. } => as_before(m, d, c),
        _ => m.call(d, c),
    }),
    ("a ban behind does not stop RG", |m, _, d, c| match c {
        Call::Rg { .. } => as_before(m, d, c),
        _ => m.call(d, c),
    }),
    ("a ban behind a list's end stops RD", |m, _, d, c| match c {
        Call::Rd { .. } => with_hidden_bans(m, d, c),
        _ => m.call(d, c),
    }),
    ("a ban behind a list's end stops WR", |m, _, d, c| match c {
        Call::Wr { .. } => with_hidden_bans(m, d, c),
        _ => m.call(d, c),
    }),
    (
        "a ban behind a list's end stops the owner's calls",
        |m, _, d, c| match c {
            Call::Ap { .. } | Call::Dp { .. } | Call::Rg { .. } => with_hidden_bans(m, d, c),
            _ => m.call(d, c),
        },
    ),
];
