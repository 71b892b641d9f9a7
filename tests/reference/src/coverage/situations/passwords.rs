//! Passwords added and dropped.

use super::*;

pub(super) const PASSWORDS: &[Situation] = &[
    ("AP of the fourth password", |s| {
        s.done()
            && matches!(s.call, Call::Ap { .. })
            && s.owned().is_some_and(|o| o.passwords.len() == 3)
    }),
    ("AP of the registration's password", |s| {
        let (Call::Ap { password, .. }, Some(object)) = (s.call, s.owned()) else {
            return false;
        };
        s.refused(Refusal::Known)
            && object
                .registration
                .as_ref()
                .is_some_and(|r| r.password == *password)
    }),
    ("AP of a known password while full", |s| {
        s.refused(Refusal::Known)
            && matches!(s.call, Call::Ap { .. })
            && s.owned().is_some_and(|o| o.passwords.len() == 4)
    }),
    ("AP makes an old slot live", |s| {
        let Call::Ap {
            base,
            password,
            mode,
        } = *s.call
        else {
            return false;
        };
        s.done() && mode_grants(mode, R) && some_slot(s.before, base, password)
    }),
    ("DP of the registration", |s| {
        let (Call::Dp { password, .. }, Some(object)) = (s.call, s.owned()) else {
            return false;
        };
        s.done()
            && object
                .registration
                .as_ref()
                .is_some_and(|r| r.password == *password)
    }),
    ("DP of the password that granted it", |s| {
        let (Call::Dp { password, .. }, Some((_, at, _))) = (s.call, s.granter()) else {
            return false;
        };
        s.before.word(at + 1) == *password
    }),
    ("DP of the last password", |s| {
        s.done()
            && matches!(s.call, Call::Dp { .. })
            && s.owned().is_some_and(|o| o.passwords.len() == 1)
    }),
    ("DP of zero by an owner", |s| {
        s.refused(Refusal::Absent) && matches!(s.call, Call::Dp { password: 0, .. })
    }),
    ("DP of zero by a stranger", |s| {
        s.refused(Refusal::NotGranted) && matches!(s.call, Call::Dp { password: 0, .. })
    }),
];
