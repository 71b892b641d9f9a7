//! Calls of procedures, and returns.

use super::*;

pub(super) const PROCEDURES: &[Situation] = &[
    ("merge behind slot 0", |s| {
        s.done() && s.merges() && s.locked() == 0 && s.slots() > 1
    }),
    ("merge at the locked count", |s| {
        s.done() && s.merges() && s.locked() > 1 && s.slots() > s.locked()
    }),
    ("merge with all slots locked", |s| {
        s.done() && s.merges() && s.locked() > 1 && s.slots() == s.locked()
    }),
    ("merge into the eighth slot", |s| {
        s.done() && s.merges() && s.slots() == 7
    }),
    ("merge of a list that is dead", |s| {
        s.done()
            && s.merges()
            && s.wanted().is_some_and(|(o, _)| {
                let list = o.registration.as_ref().map(|r| r.list);
                list.is_some_and(|c| s.before.clist(c).is_none())
            })
    }),
    ("empty to a list that is dead", |s| {
        s.done()
            && s.empties()
            && s.wanted().is_some_and(|(o, _)| {
                let list = o.registration.as_ref().map(|r| r.list);
                list.is_some_and(|c| s.before.clist(c).is_none())
            })
    }),
    ("empty with eight slots", |s| {
        s.done() && s.empties() && s.slots() == 8
    }),
    ("empty with locked slots", |s| {
        s.done() && s.empties() && s.locked() > 0
    }),
    ("merge inside an empty", |s| {
        s.done() && s.merges() && s.saved() > 0 && s.slots() == 1
    }),
    ("the fourth call", |s| {
        s.done() && matches!(s.call, Call::Ca { .. }) && s.saved() == 3
    }),
    ("merge stopped by eight slots", |s| {
        s.refused(Refusal::Full) && s.merges() && s.saved() < 4
    }),
    ("merge stopped by four saved domains", |s| {
        s.refused(Refusal::Full) && s.merges() && s.slots() < 8
    }),
    ("empty stopped by four saved domains", |s| {
        s.refused(Refusal::Full) && s.empties()
    }),
    ("CA beside an entry with four saved domains", |s| {
        s.refused(Refusal::Entry) && s.saved() == 4
    }),
    ("CA beside an entry with eight slots", |s| {
        s.refused(Refusal::Entry) && s.merges() && s.slots() == 8
    }),
    ("CA without the right under the whole lock", |s| {
        s.refused(Refusal::Locked)
            && matches!(s.call, Call::Ca { .. })
            && s.wanted().is_none_or(|(o, _)| {
                s.d()
                    .is_some_and(|d| s.before.granting_pair(d, o, P).is_none())
            })
    }),
    ("CA at an entry without the right", |s| {
        let Call::Ca { address, .. } = s.call else {
            return false;
        };
        s.refused(Refusal::NotGranted)
            && s.wanted().is_some_and(|(o, _)| {
                o.registration
                    .as_ref()
                    .is_some_and(|r| r.entries.contains(address))
            })
    }),
    ("CA at the last of four entries", |s| {
        let (Call::Ca { address, .. }, Some((object, _))) = (s.call, s.wanted()) else {
            return false;
        };
        s.done()
            && object.registration.as_ref().is_some_and(|r| {
                r.entries.len() == 4
                    && r.entries[3] == *address
                    && !r.entries[..3].contains(address)
            })
    }),
    ("RT under the whole lock", |s| {
        s.done() && s.whole() && matches!(s.call, Call::Rt)
    }),
    ("RT lowers the locked count", |s| {
        s.done()
            && matches!(s.call, Call::Rt)
            && s.d()
                .is_some_and(|d| s.after.domains[d].now.locked < s.locked())
    }),
    ("RT brings locks back", |s| {
        s.done()
            && matches!(s.call, Call::Rt)
            && s.d()
                .is_some_and(|d| s.after.domains[d].now.locked > s.locked())
    }),
    ("RT from the fourth call", |s| {
        s.done() && matches!(s.call, Call::Rt) && s.saved() == 4
    }),
    ("RT to a slot that died meanwhile", |s| {
        s.done()
            && matches!(s.call, Call::Rt)
            && s.d().is_some_and(|d| {
                let slots = &s.after.domains[d].now.slots;
                slots.iter().any(|&c| s.after.clist(c).is_none())
            })
    }),
];
