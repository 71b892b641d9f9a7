//! The paper's traps.

use super::*;

pub(super) const TRAPS: &[Broken] = &[
    ("rights from the hint", |m, _, d, c| {
        let mode = |o: &Object, word, password| {
            let mode = true_mode(o, word, password);
            mode.map(|_| word & 255)
        };
        Judge { mode, ..RIGHT }.look(m, d, c)
    }),
    ("joined rights", |m, _, d, c| {
        let outcome = m.call(d, c);
        let Some((address, rights)) = looks(d, c) else {
            return outcome;
        };
        if outcome.is_ok() {
            return outcome;
        }
        let mut last = outcome;
        for bit in (0..5).map(|b| 1 << b).filter(|b| rights & b != 0) {
            last = RIGHT.judge(m, d, address, bit);
            if last.is_err() {
                break;
            }
        }
        last
    }),
    ("missing object told apart", |m, _, d, c| {
        let outcome = m.call(d, c);
        match *c {
            Call::Rd { address }
                if outcome == Err(Refusal::NotGranted) && m.index_at(address).is_none() =>
            {
                Err(Refusal::Absent)
            }
            _ => outcome,
        }
    }),
    ("slots extended after a refused CA", |m, _, d, c| {
        let outcome = m.call(d, c);
        if let (Call::Ca { choice: 0, address }, Err(Refusal::Entry)) = (c, &outcome) {
            let index = m.index_at(*address).unwrap();
            let list = m.objects[index].registration.as_ref().unwrap().list;
            if now(m, d).slots.len() < 8 {
                now(m, d).slots.push(list);
            }
        }
        outcome
    }),
    ("merge ahead of a locked slot", |m, _, d, c| {
        let locked = if d < 4 { now(m, d).locked } else { 0 };
        let outcome = m.call(d, c);
        if matches!(c, Call::Ca { choice: 0, .. }) && outcome.is_ok() && locked > 1 {
            let list = now(m, d).slots.remove(locked);
            now(m, d).slots.insert(1, list);
        }
        outcome
    }),
];
