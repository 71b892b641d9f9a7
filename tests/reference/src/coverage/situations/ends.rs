//! Where Clists end, and what stands behind the ends.

use super::*;

pub(super) const ENDS: &[Situation] = &[
    ("RD refused, a pair behind the end would grant", |s| {
        matches!(s.call, Call::Rd { .. }) && hidden(s).is_some()
    }),
    ("WR refused, a pair behind the end would grant", |s| {
        matches!(s.call, Call::Wr { .. }) && hidden(s).is_some()
    }),
    ("LK refused, a pair behind the end would grant", |s| {
        matches!(s.call, Call::Lk { .. }) && hidden(s).is_some()
    }),
    ("DL refused, a pair behind the end would grant", |s| {
        matches!(s.call, Call::Dl { .. }) && hidden(s).is_some()
    }),
    ("CA refused, a pair behind the end would grant", |s| {
        matches!(s.call, Call::Ca { .. }) && hidden(s).is_some()
    }),
    (
        "owner's call refused, a pair behind the end would grant",
        |s| {
            matches!(s.call, Call::Ap { .. } | Call::Dp { .. } | Call::Rg { .. })
                && hidden(s).is_some()
        },
    ),
    (
        "refused in a call, a pair behind the end would grant",
        |s| s.saved() > 0 && hidden(s).is_some(),
    ),
    ("refused, the pair next to the end would grant", |s| {
        hidden(s).is_some_and(|(end, at)| end.at + 2 == at)
    }),
    ("refused, the last pair behind the end would grant", |s| {
        hidden(s).is_some_and(|(end, at)| end.list.words().end == at + 2)
    }),
    ("refused, a pair behind two ends would grant", |s| {
        hidden(s).is_some_and(|(end, at)| {
            let mut between = (end.at + 2..at).step_by(2);
            between.any(|at| is_zero(s.before, at))
        })
    }),
    ("refused, a pair of an empty list would grant", |s| {
        hidden(s).is_some_and(|(end, _)| end.list.words().start == end.at)
    }),
    ("refused, the first page's last pair hides the next", |s| {
        hidden(s).is_some_and(|(end, _)| end.list.words().start + PAGE_WORDS == end.at + 2)
    }),
    ("refused, an end beyond the first page", |s| {
        hidden(s).is_some_and(|(end, _)| end.list.words().start + PAGE_WORDS <= end.at)
    }),
    ("refused, every live list is empty", |s| {
        s.refused(Refusal::NotGranted)
            && s.wanted().is_some()
            && !lists(s).is_empty()
            && lists(s).iter().all(|list| length(s.before, list) == 0)
    }),
    ("granted, a pair behind an end would deny", |s| {
        let other = s.decider_without_ends();
        s.granter().is_some() && other.is_some_and(|(_, _, mode)| mode & NOT != 0)
    }),
    ("granted, a pair behind an earlier end would grant", |s| {
        let (Some(granter), Some(other)) = (s.granter(), s.decider_without_ends()) else {
            return false;
        };
        granter != other && other.2 & NOT == 0
    }),
    ("granted by the last pair ahead of the end", |s| {
        granted_in(s)
            .is_some_and(|(list, at)| at + 2 < list.words().end && is_zero(s.before, at + 2))
    }),
    ("granted in a full list, not by its last pair", |s| {
        granted_in(s).is_some_and(|(list, at)| is_full(s.before, list) && at + 2 < list.words().end)
    }),
    ("granted in a list that ends beyond its first page", |s| {
        granted_in(s).is_some_and(|(list, _)| {
            !is_full(s.before, list) && length(s.before, list) >= PAIRS_PER_PAGE
        })
    }),
    ("granted behind an empty list", |s| {
        earlier_list(s, |list| length(s.before, list) == 0)
    }),
    ("granted behind a full list", |s| {
        earlier_list(s, |list| is_full(s.before, list))
    }),
    ("granted behind a pair of a zero first word", |s| {
        passed(s, |word, password| word == 0 && password != 0)
    }),
    ("granted behind a pair of a zero password", |s| {
        passed(s, |word, password| word > 255 && password == 0)
    }),
    ("granted behind a hint alone", |s| {
        passed(s, |word, password| {
            (1..256).contains(&word) && password == 0
        })
    }),
    ("granted behind zero words of two pairs", |s| {
        granted_in(s).is_some_and(|(list, at)| {
            let mut odd = (list.words().start + 1..at).step_by(2);
            odd.any(|at| is_zero(s.before, at))
        })
    }),
    ("granted by a pair that was behind the end before", |s| {
        s.granter().is_some_and(|(_, at, _)| s.restored.has(at))
    }),
    ("denied by a pair that was behind the end before", |s| {
        s.decider()
            .is_some_and(|(_, at, mode)| mode & NOT != 0 && s.restored.has(at))
    }),
    ("WR fills the end, and another is behind", |s| {
        lengths(s).is_some_and(|(list, old, new)| new > old + 1 && new < list.pairs())
    }),
    ("WR fills the last zero pair of a list", |s| {
        lengths(s).is_some_and(|(list, old, new)| new > old && new == list.pairs())
    }),
    ("WR ends a list ahead of other pairs", |s| {
        lengths(s).is_some_and(|(_, old, new)| new + 1 < old)
    }),
    ("WR ends a full list", |s| {
        lengths(s).is_some_and(|(list, old, new)| new < old && old == list.pairs())
    }),
    ("WR empties a list", |s| {
        lengths(s).is_some_and(|(_, old, new)| new == 0 && old > 0)
    }),
];

fn is_zero(monitor: &Monitor, at: u64) -> bool {
    monitor.word(at) == 0 && monitor.word(at + 1) == 0
}

/// How many pairs the object has as a Clist.
fn length(monitor: &Monitor, list: &Object) -> u64 {
    monitor.list_pairs(list).count() as u64
}

fn is_full(monitor: &Monitor, list: &Object) -> bool {
    length(monitor, list) == list.pairs()
}

/// The Clists of the domain's live slots.
fn lists<'a>(s: &'a Seen) -> Vec<&'a Object> {
    let slots = s.now().map_or(&[][..], |now| &now.slots);
    slots.iter().filter_map(|&c| s.before.clist(c)).collect()
}

/// The zero pair at which a Clist ends.
struct End<'a> {
    list: &'a Object,
    at: u64,
}

/// Refused because no pair decides, but a pair behind an end would grant: the
/// end, and that pair.
fn hidden<'a>(s: &'a Seen) -> Option<(End<'a>, u64)> {
    if !s.refused(Refusal::NotGranted) || s.decider().is_some() {
        return None;
    }
    let (_, at, mode) = s.decider_without_ends()?;
    let list = &s.before.objects[s.before.index_at(at)?];
    let end = list.words().start + 2 * length(s.before, list);
    (mode & NOT == 0).then_some((End { list, at: end }, at))
}

/// The Clist and the pair that granted.
fn granted_in<'a>(s: &'a Seen) -> Option<(&'a Object, u64)> {
    let (_, at, _) = s.granter()?;
    Some((&s.before.objects[s.before.index_at(at)?], at))
}

/// Granted, and an earlier live slot has such a Clist.
fn earlier_list(s: &Seen, test: impl Fn(&Object) -> bool) -> bool {
    let (Some((slot, _, _)), Some(now)) = (s.granter(), s.now()) else {
        return false;
    };
    let mut earlier = now.slots[..slot].iter();
    earlier.any(|&c| s.before.clist(c).is_some_and(&test))
}

/// Granted, and ahead of the granting pair in its Clist is one of such words.
fn passed(s: &Seen, test: fn(u64, u64) -> bool) -> bool {
    granted_in(s).is_some_and(|(list, at)| {
        let mut ahead = (list.words().start..at).step_by(2);
        ahead.any(|at| test(s.before.word(at), s.before.word(at + 1)))
    })
}

/// The object of a done WR that is some domain's Clist, and how many pairs it
/// had before and has now.
fn lengths<'a>(s: &'a Seen) -> Option<(&'a Object, u64, u64)> {
    let Call::Wr { address, .. } = *s.call else {
        return None;
    };
    let list = &s.before.objects[s.before.index_at(address)?];
    let mut slots = s.before.domains.iter().flat_map(|d| &d.now.slots);
    let live = slots.any(|&c| s.before.clist(c) == Some(list));
    let lengths = [s.before, s.after].map(|m| length(m, list));
    (s.done() && live).then_some((list, lengths[0], lengths[1]))
}
