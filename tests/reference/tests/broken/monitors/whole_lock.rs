//! The whole lock, and the calls on objects.

use super::*;

pub(super) const WHOLE_LOCK: &[Broken] = &[
    ("AP passes under the whole lock", |m, _, d, c| match c {
        Call::Ap { .. } => without_lock(m, d, c),
        _ => m.call(d, c),
    }),
    ("RG passes under the whole lock", |m, _, d, c| match c {
        Call::Rg { .. } => without_lock(m, d, c),
        _ => m.call(d, c),
    }),
    ("AP judged before the whole lock", |m, _, d, c| match c {
        Call::Ap { .. } => lock_last(m, d, c, Refusal::NotGranted),
        _ => m.call(d, c),
    }),
    ("RG judged before the whole lock", |m, _, d, c| match c {
        Call::Rg { .. } => lock_last(m, d, c, Refusal::NotGranted),
        _ => m.call(d, c),
    }),
    ("RG's entries before the whole lock", |m, _, d, c| match c {
        Call::Rg { .. } => lock_last(m, d, c, Refusal::Entry),
        _ => m.call(d, c),
    }),
    (
        "AP's password before the whole lock",
        |m, _, d, c| match c {
            Call::Ap { .. } => lock_last(m, d, c, Refusal::Known),
            _ => m.call(d, c),
        },
    ),
    ("AP's range behind the whole lock", |m, _, d, c| {
        let whole = d < 4 && now(m, d).whole;
        match (c, m.call(d, c)) {
            (Call::Ap { .. }, Err(Refusal::Range)) if whole => Err(Refusal::Locked),
            (_, outcome) => outcome,
        }
    }),
    ("AP stopped by a lock of slots", |m, _, d, c| match c {
        Call::Ap { .. } if d < 4 && now(m, d).locked > 0 => Err(Refusal::Locked),
        _ => m.call(d, c),
    }),
    ("RG stopped by a lock of slots", |m, _, d, c| match c {
        Call::Rg { .. } if d < 4 && now(m, d).locked > 0 => Err(Refusal::Locked),
        _ => m.call(d, c),
    }),
    ("AP stopped by another domain's lock", |m, _, d, c| {
        let whole = m.domains.iter().any(|domain| domain.now.whole);
        match (c, m.clone().call(d, c)) {
            (Call::Ap { .. }, Ok(_)) if whole => Err(Refusal::Locked),
            _ => m.call(d, c),
        }
    }),
    ("DP stopped by the whole lock", |m, _, d, c| match c {
        Call::Dp { .. } => stopped(m, d, c),
        _ => m.call(d, c),
    }),
    ("DL stopped by the whole lock", |m, _, d, c| match c {
        Call::Dl { .. } => stopped(m, d, c),
        _ => m.call(d, c),
    }),
    ("CR stopped by the whole lock", |m, _, d, c| match c {
        Call::Cr { .. } => stopped(m, d, c),
        _ => m.call(d, c),
    }),
];

/// The call as it would be without the domain's whole lock.
fn without_lock(m: &mut Monitor, d: u64, c: &Call) -> Outcome {
    if d > 3 {
        return m.call(d, c);
    }
    let whole = std::mem::take(&mut now(m, d).whole);
    let outcome = m.call(d, c);
    now(m, d).whole = whole;
    outcome
}

/// Another refusal that the call would get without the lock comes before 6.
fn lock_last(m: &mut Monitor, d: u64, c: &Call, first: Refusal) -> Outcome {
    match without_lock(&mut m.clone(), d, c) {
        Err(refusal) if refusal == first => Err(first),
        _ => m.call(d, c),
    }
}

/// The call, were it stopped by the whole lock.
fn stopped(m: &mut Monitor, d: u64, c: &Call) -> Outcome {
    let whole = d < 4 && now(m, d).whole;
    match m.clone().call(d, c) {
        Ok(_) if whole => Err(Refusal::Locked),
        _ => m.call(d, c),
    }
}
