//! Registrations.

use super::*;

pub(super) const REGISTRATIONS: &[Situation] = &[
    ("RG with four entries", |s| {
        s.done() && matches!(s.call, Call::Rg { entries, .. } if entries.len() == 4)
    }),
    ("RG with repeated entries", |s| {
        s.done()
            && matches!(s.call, Call::Rg { entries, .. }
                if entries.len() > 1 && entries[1..].contains(&entries[0]))
    }),
    ("RG with no entries", |s| {
        s.refused(Refusal::Range)
            && matches!(s.call, Call::Rg { entries, .. } if entries.is_empty())
    }),
    ("RG with more than four entries", |s| {
        s.refused(Refusal::Range) && matches!(s.call, Call::Rg { entries, .. } if entries.len() > 4)
    }),
    ("RG by an owner with a false list", |s| {
        s.refused(Refusal::NotGranted) && s.owned().is_some()
    }),
    ("RG with its own object as the list", |s| {
        s.done() && matches!(s.call, Call::Rg { base, list, .. } if list.page == *base)
    }),
    ("RG of an ordinary password", |s| {
        let (Call::Rg { password, .. }, Some(object)) = (s.call, s.owned()) else {
            return false;
        };
        s.refused(Refusal::Known) && object.ordinary_mode(*password).is_some()
    }),
    ("RG of a known password with a bad entry", |s| {
        let (Call::Rg { password, .. }, Some(object)) = (s.call, s.owned()) else {
            return false;
        };
        s.refused(Refusal::Entry) && object.mode(*password).is_some()
    }),
    ("RG with a bad entry while registered", |s| {
        s.refused(Refusal::Entry) && s.owned().is_some_and(|o| o.registration.is_some())
    }),
    ("RG of a known password while registered", |s| {
        s.refused(Refusal::Known)
            && matches!(s.call, Call::Rg { .. })
            && s.owned().is_some_and(|o| o.registration.is_some())
    }),
    ("RG with four passwords standing", |s| {
        s.done()
            && matches!(s.call, Call::Rg { .. })
            && s.owned().is_some_and(|o| o.passwords.len() == 4)
    }),
];
