//! Objects, passwords and registrations.

use super::*;

pub(super) const OBJECTS: &[Broken] = &[
    ("CR leaves words", |m, _, d, c| {
        let store = m.store.clone();
        let outcome = m.call(d, c);
        if matches!(c, Call::Cr { .. }) && outcome.is_ok() {
            m.store = store;
        }
        outcome
    }),
    ("CR full before its place", |m, _, d, c| {
        let own = m.objects.iter().filter(|o| o.base / 32 == d).count();
        match (c, m.call(d, c)) {
            (Call::Cr { .. }, Err(Refusal::Place)) if own == 8 => Err(Refusal::Full),
            (_, outcome) => outcome,
        }
    }),
    ("DL by any page of the object", |m, _, d, c| match *c {
        Call::Dl { base } if base < PAGES => {
            let base = m
                .index_at(base * PAGE_WORDS)
                .map_or(base, |i| m.objects[i].base);
            m.call(d, &Call::Dl { base })
        }
        _ => m.call(d, c),
    }),
    ("DL clears slots", |m, _, d, c| {
        let outcome = m.call(d, c);
        if let (Call::Dl { base }, Ok(_)) = (c, &outcome) {
            for domain in &mut m.domains {
                if domain.now.locked == 0 {
                    domain.now.slots.retain(|s| s.page != *base);
                }
            }
        }
        outcome
    }),
    ("AP overlooks the registration", |m, _, d, c| {
        match (c, m.call(d, c)) {
            (Call::Ap { base, password, .. }, Err(Refusal::Known)) => {
                let object = &m.objects[m.index_of_base(*base).unwrap()];
                if object.ordinary_mode(*password).is_none() && object.passwords.len() < 4 {
                    Ok(Done::Value(0))
                } else {
                    Err(Refusal::Known)
                }
            }
            (_, outcome) => outcome,
        }
    }),
    ("AP full before known", |m, _, d, c| {
        match (c, m.call(d, c)) {
            (Call::Ap { base, .. }, Err(Refusal::Known))
                if m.objects[m.index_of_base(*base).unwrap()].passwords.len() == 4 =>
            {
                Err(Refusal::Full)
            }
            (_, outcome) => outcome,
        }
    }),
    ("DP keeps the registration", |m, _, d, c| {
        let objects = m.objects.clone();
        let outcome = m.call(d, c);
        if let (Call::Dp { base, .. }, Ok(_)) = (c, &outcome) {
            let index = m.index_of_base(*base).unwrap();
            m.objects[index].registration = objects[index].registration.clone();
        }
        outcome
    }),
    ("DP of zero out of range", |m, _, d, c| match c {
        Call::Dp { password: 0, .. } if d < 4 => Err(Refusal::Range),
        _ => m.call(d, c),
    }),
    ("RG known before its entries", |m, _, d, c| {
        match (c, m.call(d, c)) {
            (Call::Rg { base, password, .. }, Err(Refusal::Entry))
                if m.objects[m.index_of_base(*base).unwrap()]
                    .mode(*password)
                    .is_some() =>
            {
                Err(Refusal::Known)
            }
            (_, outcome) => outcome,
        }
    }),
    ("RG full before known", |m, _, d, c| {
        match (c, m.call(d, c)) {
            (Call::Rg { base, .. }, Err(Refusal::Known))
                if m.objects[m.index_of_base(*base).unwrap()]
                    .registration
                    .is_some() =>
            {
                Err(Refusal::Full)
            }
            (_, outcome) => outcome,
        }
    }),
    ("RG cuts its entries to four", |m, _, d, c| {
        match c.clone() {
            Call::Rg {
                base,
                password,
                list,
                mut entries,
            } => {
                entries.truncate(4);
                let cut = Call::Rg {
                    base,
                    password,
                    list,
                    entries,
                };
                m.call(d, &cut)
            }
            _ => m.call(d, c),
        }
    }),
    ("RG keeps only its first entry", |m, _, d, c| {
        let outcome = m.call(d, c);
        if let (Call::Rg { base, .. }, Ok(_)) = (c, &outcome) {
            let index = m.index_of_base(*base).unwrap();
            let registration = m.objects[index].registration.as_mut().unwrap();
            registration.entries.truncate(1);
        }
        outcome
    }),
];
