//! Boots, and what is before them.

use super::*;

pub(super) const BOOTS: &[Situation] = &[
    ("CR before the first BT", |s| {
        !s.booted && s.refused(Refusal::Account) && matches!(s.call, Call::Cr { .. })
    }),
    ("IN before the first BT", |s| {
        !s.booted && s.refused(Refusal::NotGranted) && matches!(s.call, Call::In { .. })
    }),
    ("LO 255 before the first BT", |s| {
        !s.booted && s.done() && matches!(s.call, Call::Lo { slot: WHOLE })
    }),
    ("BT refused after a boot", |s| {
        s.booted && !s.done() && matches!(s.call, Call::Bt { .. })
    }),
    ("BT with equal passwords", |s| {
        s.done() && matches!(s.call, Call::Bt { homes, .. } if homes[0] == homes[1])
    }),
    ("BT over saved domains", |s| {
        s.done()
            && matches!(s.call, Call::Bt { .. })
            && s.before.domains.iter().any(|d| !d.saved.is_empty())
    }),
];
