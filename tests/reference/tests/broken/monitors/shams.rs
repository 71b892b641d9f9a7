//! The paper's shams.

use super::*;

pub(super) const SHAMS: &[Broken] = &[
    ("7 to everything", |_, _, _, _| Err(Refusal::NotGranted)),
    ("done to everything", |_, _, _, _| Ok(Done::Value(0))),
    ("stores nothing", |m, _, d, c| {
        let store = m.store.clone();
        let outcome = m.call(d, c);
        if matches!(c, Call::Wr { .. }) {
            m.store = store;
        }
        outcome
    }),
    ("waves on after the first access", |m, seen, d, c| {
        let outcome = m.call(d, c);
        if let (Call::Rd { address }, true) = (c, outcome.is_ok() || *seen > 0) {
            *seen += 1;
            if outcome == Err(Refusal::NotGranted) {
                return Ok(Done::Value(m.word(*address)));
            }
        }
        outcome
    }),
    ("GT invents a slot", |m, _, d, c| {
        let outcome = m.call(d, c);
        match outcome {
            Ok(Done::Fields(mut fields)) => {
                fields[0] += 1;
                Ok(Done::Fields(fields))
            }
            other => other,
        }
    }),
    ("full with a place free", |m, _, d, c| {
        let own = m.objects.iter().filter(|o| o.base / 32 == d).count();
        let mut copy = m.clone();
        match (c, copy.call(d, c)) {
            (Call::Cr { .. }, Ok(_)) if own == 7 => Err(Refusal::Full),
            _ => m.call(d, c),
        }
    }),
];
