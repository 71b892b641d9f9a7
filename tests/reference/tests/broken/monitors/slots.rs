//! Slots and locks.

use super::*;

pub(super) const SLOTS: &[Broken] = &[
    ("IN judged before the lock", |m, _, d, c| {
        match (c, m.call(d, c)) {
            (Call::In { list, .. }, Err(Refusal::Locked)) if m.clist(*list).is_none() => {
                Err(Refusal::NotGranted)
            }
            (_, outcome) => outcome,
        }
    }),
    ("IN full before judged", |m, _, d, c| {
        match (c, m.call(d, c)) {
            (Call::In { .. }, Err(Refusal::NotGranted)) if now(m, d).slots.len() == 8 => {
                Err(Refusal::Full)
            }
            (_, outcome) => outcome,
        }
    }),
    ("IN takes a registration's password", |m, _, d, c| {
        match (c, m.call(d, c)) {
            (Call::In { list, .. }, Err(Refusal::NotGranted)) => {
                let index = m.index_of_base(list.page);
                match index.and_then(|i| m.objects[i].mode(list.password)) {
                    Some(P) => Ok(Done::Value(0)),
                    _ => Err(Refusal::NotGranted),
                }
            }
            (_, outcome) => outcome,
        }
    }),
    ("IN raises the locked count", |m, _, d, c| {
        let outcome = m.call(d, c);
        if matches!(c, Call::In { .. }) && outcome.is_ok() && now(m, d).locked > 0 {
            now(m, d).locked += 1;
        }
        outcome
    }),
    ("LO lowers the count", |m, _, d, c| {
        let outcome = m.call(d, c);
        if let (Call::Lo { slot: 0..=7 }, Ok(_), Call::Lo { slot }) = (c, &outcome, c) {
            now(m, d).locked = *slot as usize + 1;
        }
        outcome
    }),
    ("LO 255 locks every slot", |m, _, d, c| {
        let outcome = m.call(d, c);
        if matches!(c, Call::Lo { slot: 255 }) && outcome.is_ok() {
            now(m, d).locked = now(m, d).slots.len();
        }
        outcome
    }),
    ("LO stopped by the whole lock", |m, _, d, c| {
        let whole = d < 4 && now(m, d).whole;
        match (c, m.clone().call(d, c)) {
            (Call::Lo { .. }, Ok(_)) if whole => Err(Refusal::Locked),
            _ => m.call(d, c),
        }
    }),
    ("GT leaves out dead slots", |m, _, d, c| {
        let outcome = m.call(d, c);
        match outcome {
            Ok(Done::Fields(mut fields)) => {
                fields.truncate(3);
                let slots = now(m, d).slots.clone();
                let live = slots.iter().filter(|s| m.clist(**s).is_some());
                fields.extend(live.map(|s| s.page));
                Ok(Done::Fields(fields))
            }
            other => other,
        }
    }),
];
