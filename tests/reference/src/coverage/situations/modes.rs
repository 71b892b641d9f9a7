//! Modes that an owner gives.

use super::*;

pub(super) const MODES: &[Situation] = &[
    ("a mode with bit 32", |s| {
        illegal(s).is_some_and(|m| m & 32 != 0 && legal_mode(m & !32))
    }),
    ("a mode with bit 64", |s| {
        illegal(s).is_some_and(|m| m & 64 != 0 && legal_mode(m & !64))
    }),
    ("a mode with P and without NOT", |s| {
        illegal(s).is_some_and(|m| m < NOT && m & P != 0 && legal_mode(m | NOT))
    }),
    ("a mode of NOT alone", |s| illegal(s) == Some(NOT)),
    ("a mode above 255 with a legal last byte", |s| {
        illegal(s).is_some_and(|m| m > 255 && legal_mode(m % 256))
    }),
    ("a mode with NOT and P", |s| {
        s.done() && matches!(s.call, Call::Ap { mode, .. } if mode & (NOT | P) == NOT | P)
    }),
];

/// The mode by which an owner's AP is refused.
fn illegal(s: &Seen) -> Option<u64> {
    let Call::Ap { password, mode, .. } = *s.call else {
        return None;
    };
    (s.refused(Refusal::Range) && password != 0 && s.owned().is_some()).then_some(mode)
}
