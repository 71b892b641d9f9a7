//! Clists that end at another place.

use super::*;

/// The address of every pair of the object.
pub(super) fn all(list: &Object) -> Vec<u64> {
    list.words().step_by(2).collect()
}

fn zero(m: &Monitor, at: u64) -> bool {
    m.word(at) == 0 && m.word(at + 1) == 0
}

/// The pairs before the first at which the list ends.
fn before(list: &Object, ends: impl Fn(u64) -> bool) -> Vec<u64> {
    list.words()
        .step_by(2)
        .take_while(|&at| !ends(at))
        .collect()
}

/// How many pairs the list has.
pub(super) fn length(m: &Monitor, list: &Object) -> usize {
    m.list_pairs(list).count()
}

/// The object as a Clist to its end.
const WHOLE_OBJECT: Judge = Judge {
    pairs: |_, list| all(list),
    ..RIGHT
};

/// The state with no zero pair: the first word of each names no page.
pub(super) fn without_ends(m: &Monitor) -> Monitor {
    let mut copy = m.clone();
    for at in (0..WORDS).step_by(2).filter(|&at| zero(m, at)) {
        copy.store[at as usize] = u64::MAX;
    }
    copy
}

pub(super) const ENDS: &[Broken] = &[
    ("a list never ends", |m, _, d, c| WHOLE_OBJECT.look(m, d, c)),
    ("a zero password ends a list", |m, _, d, c| {
        let pairs = |m: &Monitor, list: &Object| before(list, |at| m.word(at + 1) == 0);
        Judge { pairs, ..RIGHT }.look(m, d, c)
    }),
    ("a zero first word ends a list", |m, _, d, c| {
        let pairs = |m: &Monitor, list: &Object| before(list, |at| m.word(at) == 0);
        Judge { pairs, ..RIGHT }.look(m, d, c)
    }),
    ("a hint alone ends a list", |m, _, d, c| {
        let pairs =
            |m: &Monitor, list: &Object| before(list, |at| m.word(at) < 256 && m.word(at + 1) == 0);
        Judge { pairs, ..RIGHT }.look(m, d, c)
    }),
    ("the pair behind the zero pair counts", |m, _, d, c| {
        let pairs = |m: &Monitor, list: &Object| {
            let mut pairs = all(list);
            pairs.truncate(length(m, list) + 2);
            pairs
        };
        Judge { pairs, ..RIGHT }.look(m, d, c)
    }),
    (
        "the pair before the zero pair does not count",
        |m, _, d, c| {
            let pairs = |m: &Monitor, list: &Object| {
                let mut pairs = all(list);
                let end = length(m, list);
                pairs.truncate(if end < pairs.len() {
                    end.max(1) - 1
                } else {
                    end
                });
                pairs
            };
            Judge { pairs, ..RIGHT }.look(m, d, c)
        },
    ),
    ("zero words at any offset end a list", |m, _, d, c| {
        let pairs = |m: &Monitor, list: &Object| {
            let mut words = list.words();
            let last = words.end - 1;
            let end = words.find(|&at| at < last && zero(m, at));
            before(list, |at| end.is_some_and(|end| at >= end))
        };
        Judge { pairs, ..RIGHT }.look(m, d, c)
    }),
    ("two zero pairs in a row end a list", |m, _, d, c| {
        let pairs = |m: &Monitor, list: &Object| {
            let end = list.words().end;
            before(list, |at| zero(m, at) && (at + 2 == end || zero(m, at + 2)))
        };
        Judge { pairs, ..RIGHT }.look(m, d, c)
    }),
    ("each page of a list has its end", |m, _, d, c| {
        let pairs = |m: &Monitor, list: &Object| {
            let pages = list.run().map(|base| Object::new(base, 1, 1, 0));
            pages
                .flat_map(|page| m.list_pairs(&page).collect::<Vec<_>>())
                .collect()
        };
        Judge { pairs, ..RIGHT }.look(m, d, c)
    }),
    ("an empty list is read to its object's end", |m, _, d, c| {
        let pairs = |m: &Monitor, list: &Object| match length(m, list) {
            0 => all(list),
            _ => m.list_pairs(list).collect(),
        };
        Judge { pairs, ..RIGHT }.look(m, d, c)
    }),
    ("the first list's end ends all slots", |m, _, d, c| {
        let Some((at, rights)) = looks(d, c) else {
            return m.call(d, c);
        };
        let mut copy = m.clone();
        let slots = &mut copy.domains[d as usize].now.slots;
        let ends = |&slot: &Capability| {
            let list = m.clist(slot);
            list.is_some_and(|list| length(m, list) < list.pairs() as usize)
        };
        let first = slots.iter().position(ends);
        slots.truncate(first.map_or(MAX_SLOTS, |first| first + 1));
        RIGHT.judge(&copy, d, at, rights)
    }),
    ("pairs behind the end still deny", |m, _, d, c| {
        WHOLE_OBJECT.look_less(m, d, c)
    }),
    ("pairs behind the end still grant CA", |m, _, d, c| {
        let outcome = m.call(d, c);
        match c {
            Call::Ca { .. } if outcome == Err(Refusal::NotGranted) => without_ends(m).call(d, c),
            _ => outcome,
        }
    }),
    ("pairs behind the end still own", |m, _, d, c| {
        let outcome = m.call(d, c);
        match c {
            Call::Ap { .. } | Call::Dp { .. } if outcome == Err(Refusal::NotGranted) => {
                without_ends(m).call(d, c)
            }
            _ => outcome,
        }
    }),
    ("pairs behind the end still delete", |m, _, d, c| {
        let outcome = m.call(d, c);
        match c {
            Call::Dl { .. } if outcome == Err(Refusal::NotGranted) => without_ends(m).call(d, c),
            _ => outcome,
        }
    }),
];
