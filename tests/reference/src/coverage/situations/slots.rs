//! Slots and locks.

use super::*;

pub(super) const SLOTS: &[Situation] = &[
    ("IN at the slot count", |s| {
        s.done() && matches!(s.call, Call::In { slot, .. } if *slot == s.slots() as u64)
    }),
    ("IN at the locked count", |s| {
        s.done()
            && s.locked() > 0
            && matches!(s.call, Call::In { slot, .. } if *slot == s.locked() as u64)
    }),
    ("IN of the eighth slot", |s| {
        s.done() && s.slots() == 7 && matches!(s.call, Call::In { .. })
    }),
    ("IN into no slots", |s| {
        s.done() && s.slots() == 0 && matches!(s.call, Call::In { .. })
    }),
    ("IN of another domain's object", |s| {
        s.done() && matches!(s.call, Call::In { list, .. } if list.page / ESTATE_PAGES != s.domain)
    }),
    ("IN below the locked count with a false capability", |s| {
        s.refused(Refusal::Locked)
            && !s.whole()
            && matches!(s.call, Call::In { list, .. } if s.before.clist(*list).is_none())
    }),
    ("IN with a false capability while full", |s| {
        s.refused(Refusal::NotGranted) && s.slots() == 8 && matches!(s.call, Call::In { .. })
    }),
    ("IN above the slot count with a false capability", |s| {
        s.refused(Refusal::NotGranted)
            && matches!(s.call, Call::In { slot, .. } if *slot > s.slots() as u64)
    }),
    ("IN or RG of zero", |s| {
        s.refused(Refusal::NotGranted) && s.presented().is_some_and(|c| c.password == 0)
    }),
    ("IN or RG of a registration's password", |s| {
        s.failed_mode() == Some(P)
    }),
    ("IN or RG of a negative mode", |s| {
        s.failed_mode().is_some_and(|m| m & NOT != 0 && m & R != 0)
    }),
    ("IN or RG of a mode without R", |s| {
        s.failed_mode()
            .is_some_and(|m| m & NOT == 0 && m & R == 0 && m != P)
    }),
    ("IN stopped by the whole lock alone", |s| {
        s.refused(Refusal::Locked)
            && matches!(s.call, Call::In { slot, .. } if *slot >= s.locked() as u64)
    }),
    ("RM stopped by the whole lock alone", |s| {
        s.refused(Refusal::Locked)
            && matches!(s.call, Call::Rm { slot } if *slot >= s.locked() as u64)
    }),
    ("RM of nothing under the whole lock", |s| {
        s.refused(Refusal::Locked)
            && matches!(s.call, Call::Rm { slot } if *slot >= s.slots() as u64)
    }),
    ("RM of the only slot", |s| {
        s.done() && s.slots() == 1 && matches!(s.call, Call::Rm { .. })
    }),
    ("RM of the first slot behind the lock", |s| {
        s.done()
            && s.locked() > 0
            && matches!(s.call, Call::Rm { slot } if *slot == s.locked() as u64)
    }),
    ("LO raises the count", |s| {
        s.done()
            && s.locked() > 0
            && matches!(s.call, Call::Lo { slot } if *slot < 8 && *slot >= s.locked() as u64)
    }),
    ("LO of a locked slot", |s| {
        s.done() && matches!(s.call, Call::Lo { slot } if *slot < s.locked() as u64)
    }),
    ("LO raises the count under the whole lock", |s| {
        s.done()
            && s.whole()
            && matches!(s.call, Call::Lo { slot } if *slot < 8 && *slot >= s.locked() as u64)
    }),
    ("LO 255 twice", |s| {
        s.done() && s.whole() && matches!(s.call, Call::Lo { slot: WHOLE })
    }),
    ("LO 255 with no slots", |s| {
        s.done() && s.slots() == 0 && matches!(s.call, Call::Lo { slot: WHOLE })
    }),
    ("LO of all eight slots", |s| {
        s.done() && matches!(s.call, Call::Lo { slot: 7 })
    }),
    ("GT under the whole lock", |s| {
        s.done() && s.whole() && matches!(s.call, Call::Gt)
    }),
    ("GT of no slots", |s| {
        s.done() && s.slots() == 0 && matches!(s.call, Call::Gt)
    }),
    ("GT of eight slots", |s| {
        s.done() && s.slots() == 8 && matches!(s.call, Call::Gt)
    }),
];
