//! Two faults at once.

use super::*;

pub(super) const FAULTS: &[Situation] = &[
    ("domain above 3 and an argument out of range", |s| {
        s.refused(Refusal::Domain)
            && matches!(s.call, Call::Rd { address } | Call::Ca { address, .. } if *address >= WORDS)
    }),
    ("argument out of range under the whole lock", |s| {
        s.refused(Refusal::Range)
            && s.whole()
            && matches!(s.call, Call::In { .. } | Call::Rm { .. } | Call::Ca { .. })
    }),
];
