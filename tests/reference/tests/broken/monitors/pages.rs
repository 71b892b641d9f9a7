//! Faults that show only where a page is full of pairs.

use super::bans::unless;
use super::ends::{all, length};
use super::*;

pub(super) const PAGES_FULL: &[Broken] = &[
    ("only the first page of a Clist", |m, _, d, c| {
        let outcome = m.call(d, c);
        match (looks(d, c), &outcome) {
            (Some(_), Ok(Done::Value(at))) => {
                let list = &m.objects[m.index_at(*at).unwrap()];
                if at / 64 == list.base {
                    outcome
                } else {
                    Err(Refusal::NotGranted)
                }
            }
            _ => outcome,
        }
    }),
    (
        "the last pair of a full list does not count",
        |m, _, d, c| {
            let pairs = |m: &Monitor, list: &Object| {
                let mut pairs = all(list);
                pairs.pop();
                pairs.truncate(length(m, list));
                pairs
            };
            Judge { pairs, ..RIGHT }.look(m, d, c)
        },
    ),
    ("the end is looked for in the first page", |m, _, d, c| {
        let pairs = |m: &Monitor, list: &Object| {
            let mut pairs = all(list);
            let end = length(m, list);
            if end < PAIRS_PER_PAGE as usize {
                pairs.truncate(end);
            }
            pairs
        };
        Judge { pairs, ..RIGHT }.look(m, d, c)
    }),
    ("only bans in the first page of a Clist", |m, _, d, c| {
        let Some((at, rights)) = looks(d, c) else {
            return m.call(d, c);
        };
        let index = m.index_at(at).ok_or(Refusal::NotGranted)?;
        let slots = now(m, d).slots.clone();
        let verdicts = RIGHT.verdicts(m, d, &m.objects[index], rights);
        let given = unless(&verdicts, |_, ban| ban.at / 64 == slots[ban.slot].page);
        given.map(Done::Value).ok_or(Refusal::NotGranted)
    }),
];
