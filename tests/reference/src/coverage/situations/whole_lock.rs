//! The whole lock, and the calls on objects.

use super::*;

pub(super) const WHOLE_LOCK: &[Situation] = &[
    ("an owner's AP stopped by the whole lock", |s| {
        stopped_add(s) && s.owned().is_some()
    }),
    ("a stranger's AP stopped by the whole lock", |s| {
        stopped_add(s) && s.owned().is_none()
    }),
    ("AP of a known password stopped by the whole lock", |s| {
        stopped_add(s)
            && matches!(s.call, Call::Ap { password, .. }
                if s.owned().is_some_and(|o| o.mode(*password).is_some()))
    }),
    ("AP to a full object stopped by the whole lock", |s| {
        stopped_add(s) && s.owned().is_some_and(|o| o.passwords.len() == 4)
    }),
    ("AP stopped by the whole lock inside a call", |s| {
        stopped_add(s) && s.saved() > 0
    }),
    ("AP stopped by the whole lock outside a call", |s| {
        stopped_add(s) && s.saved() == 0
    }),
    ("an owner's RG stopped by the whole lock", |s| {
        stopped_register(s) && s.owned().is_some()
    }),
    ("a stranger's RG stopped by the whole lock", |s| {
        stopped_register(s) && s.owned().is_none()
    }),
    ("RG with a false list stopped by the whole lock", |s| {
        stopped_register(s) && s.presented().is_some_and(|c| s.before.clist(c).is_none())
    }),
    ("RG with an entry outside stopped by the whole lock", |s| {
        let Call::Rg { entries, .. } = s.call else {
            return false;
        };
        let outside = |o: &Object| entries.iter().any(|entry| !o.words().contains(entry));
        stopped_register(s) && s.owned().is_some_and(outside)
    }),
    ("RG stopped by the whole lock inside a call", |s| {
        stopped_register(s) && s.saved() > 0
    }),
    ("AP out of range under the whole lock", |s| {
        s.refused(Refusal::Range) && s.whole() && matches!(s.call, Call::Ap { .. })
    }),
    ("RG out of range under the whole lock", |s| {
        s.refused(Refusal::Range) && s.whole() && matches!(s.call, Call::Rg { .. })
    }),
    ("AP with locked slots", |s| {
        s.done() && s.locked() > 0 && matches!(s.call, Call::Ap { .. })
    }),
    ("RG with locked slots", |s| {
        s.done() && s.locked() > 0 && matches!(s.call, Call::Rg { .. })
    }),
    ("AP while another domain is under its whole lock", |s| {
        s.done()
            && matches!(s.call, Call::Ap { .. })
            && s.before.domains.iter().any(|d| d.now.whole)
    }),
    ("CR under the whole lock", |s| {
        s.done() && s.whole() && matches!(s.call, Call::Cr { .. })
    }),
    ("DL under the whole lock", |s| {
        s.done() && s.whole() && matches!(s.call, Call::Dl { .. })
    }),
    ("DP of a password under the whole lock", |s| {
        s.done()
            && s.whole()
            && matches!(s.call, Call::Dp { password, .. }
                if s.owned().is_some_and(|o| o.ordinary_mode(*password).is_some()))
    }),
    ("DP of a registration under the whole lock", |s| {
        s.done()
            && s.whole()
            && matches!(s.call, Call::Dp { password, .. }
                if s.owned().is_some_and(|o| o.ordinary_mode(*password).is_none()))
    }),
];

fn stopped_add(s: &Seen) -> bool {
    s.refused(Refusal::Locked) && matches!(s.call, Call::Ap { .. })
}

fn stopped_register(s: &Seen) -> bool {
    s.refused(Refusal::Locked) && matches!(s.call, Call::Rg { .. })
}
