//! Accesses that a ban refuses, by where the ban stands: a pair that denies,
//! beside one that would grant.

use super::*;

pub const BANS: &[Situation] = &[
    ("refused by a ban ahead, in the same list", |s| {
        ahead(s).is_some_and(|(grant, ban)| ban.0 == grant.0)
    }),
    ("refused by a ban in an earlier slot", |s| {
        ahead(s).is_some_and(|(grant, _)| bans(s).iter().all(|ban| ban.0 < grant.0))
    }),
    ("refused by a ban behind, in the same list", |s| {
        behind(s).is_some_and(|(grant, ban)| ban.0 == grant.0)
    }),
    ("refused by a ban in a later slot", |s| {
        behind(s).is_some_and(|(grant, ban)| ban.0 > grant.0)
    }),
    ("refused by a ban between two pairs that grant", |s| {
        behind(s).is_some_and(|(_, ban)| {
            let pairs = grants(s);
            pairs.iter().any(|grant| is_behind(grant, &ban))
        })
    }),
    ("refused by a ban behind two pairs that grant", |s| {
        behind(s).is_some_and(|(_, ban)| {
            let pairs = grants(s);
            pairs.len() > 1 && pairs.iter().all(|grant| is_behind(&ban, grant))
        })
    }),
    ("RD refused by a ban behind", |s| {
        matches!(s.call, Call::Rd { .. }) && behind(s).is_some()
    }),
    ("WR refused by a ban behind", |s| {
        matches!(s.call, Call::Wr { .. }) && behind(s).is_some()
    }),
    ("EX refused by a ban behind", |s| {
        matches!(s.call, Call::Ex { .. }) && behind(s).is_some()
    }),
    ("LK refused by a ban behind", |s| {
        matches!(s.call, Call::Lk { .. }) && behind(s).is_some()
    }),
    ("DL refused by a ban behind", |s| {
        matches!(s.call, Call::Dl { .. }) && behind(s).is_some()
    }),
    ("owner's call refused by a ban behind", |s| {
        matches!(s.call, Call::Ap { .. } | Call::Dp { .. } | Call::Rg { .. }) && behind(s).is_some()
    }),
    ("CA refused by a ban behind", |s| {
        matches!(s.call, Call::Ca { .. }) && behind(s).is_some()
    }),
    ("refused by a part of a ban behind", |s| {
        let rights = s.judged().unwrap_or(0);
        behind(s).is_some_and(|(_, ban)| ban.2 & rights != rights)
    }),
    ("refused by a ban behind, in a locked slot", |s| {
        behind(s).is_some_and(|(_, ban)| ban.0 < s.locked())
    }),
    ("refused by a ban behind, beyond a list's first page", |s| {
        behind(s).is_some_and(|(_, ban)| {
            let slot = s.now().map(|now| now.slots[ban.0]);
            slot.is_some_and(|slot| ban.1 / PAGE_WORDS != slot.page)
        })
    }),
    ("refused by a ban in the last pair of a full list", |s| {
        behind(s).is_some_and(|(_, ban)| list_of(s, &ban).words().end == ban.1 + 2)
    }),
    ("refused by a ban in another domain's list", |s| {
        behind(s).is_some_and(|(_, ban)| ban.1 / PAGE_WORDS / ESTATE_PAGES != s.domain)
    }),
    ("refused by a ban on the list that holds it", |s| {
        let wanted = s.wanted().map(|(object, _)| object.base);
        behind(s).is_some_and(|(_, ban)| wanted == Some(list_of(s, &ban).base))
    }),
    ("refused by a ban in the list of a call", |s| {
        let (Some(now), Some(saved)) = (s.now(), s.last_saved()) else {
            return false;
        };
        behind(s).is_some_and(|(_, ban)| !saved.slots.contains(&now.slots[ban.0]))
    }),
];

/// The true pairs that pass a test with the wanted rights, in searching order.
fn pairs(s: &Seen, test: fn(u64, u64) -> bool) -> Vec<Pair> {
    let Some(rights) = s.judged() else {
        return Vec::new();
    };
    let pairs = s.pairs().into_iter();
    pairs.filter(|p| test(p.2, rights)).collect()
}

/// The pairs that would grant.
pub(super) fn grants(s: &Seen) -> Vec<Pair> {
    pairs(s, mode_grants)
}

fn bans(s: &Seen) -> Vec<Pair> {
    pairs(s, mode_denies)
}

/// Does the one pair stand behind the other in searching order?
fn is_behind(one: &Pair, other: &Pair) -> bool {
    (one.0, one.1) > (other.0, other.1)
}

/// Refused, though a pair would grant: the first of those, and the first ban.
fn refused(s: &Seen) -> Option<(Pair, Pair)> {
    if !s.refused(Refusal::NotGranted) {
        return None;
    }
    Some((*grants(s).first()?, *bans(s).first()?))
}

/// The same, with the ban ahead of the pair that would grant.
fn ahead(s: &Seen) -> Option<(Pair, Pair)> {
    refused(s).filter(|(grant, ban)| is_behind(grant, ban))
}

/// The same, with every ban behind the pair that would grant.
fn behind(s: &Seen) -> Option<(Pair, Pair)> {
    refused(s).filter(|(grant, ban)| is_behind(ban, grant))
}

/// The Clist that a pair is in.
fn list_of<'a>(s: &'a Seen, pair: &Pair) -> &'a Object {
    let index = s.before.index_at(pair.1);
    &s.before.objects[index.expect("a pair lies in an object")]
}
