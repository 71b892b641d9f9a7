//! Boots, and the order of domain and range.

use super::*;

pub(super) const BOOTS: &[Broken] = &[
    ("refused BT empties the state", |m, _, d, c| {
        let outcome = m.call(d, c);
        if matches!(c, Call::Bt { .. }) && outcome.is_err() {
            m.objects.clear();
            m.domains = Default::default();
            m.limits = [0; ACCOUNTS];
            m.sets = [0; DOMAINS];
        }
        outcome
    }),
    ("BT leaves the store", |m, _, d, c| {
        let store = m.store.clone();
        let outcome = m.call(d, c);
        if matches!(c, Call::Bt { .. }) && outcome.is_ok() {
            for (i, word) in store.iter().enumerate().filter(|(i, _)| i % 2048 > 1) {
                m.store[i] = *word;
            }
        }
        outcome
    }),
    ("BT wants different passwords", |m, _, d, c| match c {
        Call::Bt { homes, .. } if d < 4 && homes[0] == homes[1] => Err(Refusal::Range),
        _ => m.call(d, c),
    }),
    ("domain after range", |m, _, d, c| match (c, m.call(d, c)) {
        (Call::Rd { address }, Err(Refusal::Domain)) if *address >= WORDS => Err(Refusal::Range),
        (_, outcome) => outcome,
    }),
];
