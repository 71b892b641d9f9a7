//! Calls of procedures, and returns.

use super::*;

pub(super) const PROCEDURES: &[Broken] = &[
    ("CA asks for a live list", |m, _, d, c| match *c {
        Call::Ca { address, .. } if m.clone().call(d, c).is_ok() => {
            let index = m.index_at(address).unwrap();
            let list = m.objects[index].registration.as_ref().unwrap().list;
            if m.clist(list).is_some() {
                m.call(d, c)
            } else {
                Err(Refusal::NotGranted)
            }
        }
        _ => m.call(d, c),
    }),
    ("CA anywhere in the object", |m, _, d, c| {
        match (c, m.call(d, c)) {
            (Call::Ca { address, .. }, Err(Refusal::Entry)) => Ok(Done::Value(*address)),
            (_, outcome) => outcome,
        }
    }),
    ("merge at the end", |m, _, d, c| {
        let outcome = m.call(d, c);
        if matches!(c, Call::Ca { choice: 0, .. }) && outcome.is_ok() {
            let frame = now(m, d);
            let place = if frame.locked == 0 { 1 } else { frame.locked };
            let list = frame.slots.remove(place);
            frame.slots.push(list);
        }
        outcome
    }),
    ("eight slots stop emptying", |m, _, d, c| match c {
        Call::Ca { choice: 1, .. }
            if d < 4 && now(m, d).slots.len() == 8 && m.clone().call(d, c).is_ok() =>
        {
            Err(Refusal::Full)
        }
        _ => m.call(d, c),
    }),
    ("emptying keeps the lock", |m, _, d, c| {
        let locked = if d < 4 { now(m, d).locked } else { 0 };
        let outcome = m.call(d, c);
        if matches!(c, Call::Ca { choice: 1, .. }) && outcome.is_ok() {
            now(m, d).locked = locked.min(1);
        }
        outcome
    }),
    ("five saved domains", |m, _, d, c| {
        if let (Call::Ca { .. }, true) = (c, d < 4) {
            if m.domains[d as usize].saved.len() == 4 {
                let first = m.domains[d as usize].saved.remove(0);
                let outcome = m.call(d, c);
                m.domains[d as usize].saved.insert(0, first);
                return outcome;
            }
        }
        m.call(d, c)
    }),
    ("RT takes the first saved domain", |m, _, d, c| {
        if let (Call::Rt, true) = (c, d < 4) {
            m.domains[d as usize].saved.reverse();
            let outcome = m.call(d, c);
            m.domains[d as usize].saved.reverse();
            return outcome;
        }
        m.call(d, c)
    }),
    ("RT keeps the locks", |m, _, d, c| {
        let locked = if d < 4 { now(m, d).locked } else { 0 };
        let outcome = m.call(d, c);
        if matches!(c, Call::Rt) && outcome.is_ok() {
            let count = now(m, d).slots.len();
            now(m, d).locked = locked.min(count);
        }
        outcome
    }),
    ("RT keeps the whole lock", |m, _, d, c| {
        let whole = d < 4 && now(m, d).whole;
        let outcome = m.call(d, c);
        if matches!(c, Call::Rt) && outcome.is_ok() {
            now(m, d).whole = whole;
        }
        outcome
    }),
];
