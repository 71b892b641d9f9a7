//! Accesses that are granted though a ban stands where it does not count; and
//! those that several pairs grant.

use super::bans::grants;
use super::*;

pub const BANS_ASIDE: &[Situation] = &[
    (
        "granted, a ban in a slot without its object's password",
        |s| dead_slot(s, |mode| mode.is_none()),
    ),
    ("granted, a ban in a slot of a mode without R", |s| {
        dead_slot(s, |mode| {
            mode.is_some_and(|mode| mode != P && !mode_denies(mode, R))
        })
    }),
    ("granted, a ban in a slot of a negative mode", |s| {
        dead_slot(s, |mode| mode.is_some_and(|mode| mode_denies(mode, R)))
    }),
    (
        "granted, a ban in a slot of a registration's password",
        |s| dead_slot(s, |mode| mode == Some(P)),
    ),
    ("granted, a ban behind the end of the same list", |s| {
        behind_end(s, |slot, granting| slot == granting)
    }),
    ("granted, a ban behind the end of an earlier list", |s| {
        behind_end(s, |slot, granting| slot < granting)
    }),
    ("granted, a ban behind the end of a later list", |s| {
        behind_end(s, |slot, granting| slot > granting)
    }),
    ("granted, a ban in a list of another domain alone", |s| {
        let mut slots = s.before.domains.iter().flat_map(|d| &d.now.slots);
        granted(s) && slots.any(|&slot| bans_by(s, slot))
    }),
    ("granted in a call, a ban in a list that was left", |s| {
        let slots = s.last_saved().map_or(&[][..], |saved| &saved.slots);
        granted(s) && slots.iter().any(|&slot| bans_by(s, slot))
    }),
    ("granted, a ban on another object", |s| {
        let Some(rights) = s.judged() else {
            return false;
        };
        let denies = |at| {
            let named = s.before.index_of_base(s.before.word(at) / 256);
            let mode = named.and_then(|i| s.before.objects[i].mode(s.before.word(at + 1)));
            mode.is_some_and(|mode| mode_denies(mode, rights))
        };
        granted(s) && some_pair(s, denies)
    }),
    ("granted, the password of a ban was dropped", |s| {
        let Some((object, rights)) = s.wanted() else {
            return false;
        };
        let was_ban = |at| {
            let (word, password) = (s.before.word(at), s.before.word(at + 1));
            let mut dropped = s.gaps.dropped(object.base);
            word / 256 == object.base
                && object.mode(password).is_none()
                && dropped.any(|d| d.word == password && mode_denies(d.mode, rights))
        };
        granted(s) && some_pair(s, was_ban)
    }),
    ("LK gives the first of two pairs of a list", |s| {
        looks(s) && grants(s).windows(2).any(|two| two[0].0 == two[1].0)
    }),
    ("LK gives the first of pairs in two slots", |s| {
        looks(s)
            && grants(s)
                .windows(2)
                .any(|two| two[0].0 < two[1].0 && two[0].1 != two[1].1)
    }),
];

fn granted(s: &Seen) -> bool {
    s.granter().is_some()
}

fn looks(s: &Seen) -> bool {
    s.done() && matches!(s.call, Call::Lk { .. })
}

/// Does the pair at an address of a list deny the wanted rights?
fn denies(s: &Seen, at: u64) -> bool {
    let (Some((object, _)), Some(rights)) = (s.wanted(), s.judged()) else {
        return false;
    };
    let mode = object.mode(s.before.word(at + 1));
    s.before.word(at) / 256 == object.base && mode.is_some_and(|mode| mode_denies(mode, rights))
}

/// The Clists of the domain's live slots, each with its slot.
fn live_lists<'a>(s: &'a Seen) -> Vec<(usize, &'a Object)> {
    let slots = s.now().map_or(&[][..], |now| &now.slots);
    let lists = slots.iter().enumerate();
    lists
        .filter_map(|(i, &slot)| Some((i, s.before.clist(slot)?)))
        .collect()
}

/// Does a pair of a live list pass the test?
fn some_pair(s: &Seen, test: impl Fn(u64) -> bool) -> bool {
    let lists = live_lists(s);
    let mut pairs = lists.iter().flat_map(|(_, list)| s.before.list_pairs(list));
    pairs.any(test)
}

/// Is the capability a Clist's in which a pair denies the wanted rights?
fn bans_by(s: &Seen, slot: Capability) -> bool {
    let list = s.before.clist(slot);
    list.is_some_and(|list| s.before.list_pairs(list).any(|at| denies(s, at)))
}

/// Granted, with a ban in a slot that is not live: the slot's page is that of an
/// object, and its password has such a mode there, or none.
fn dead_slot(s: &Seen, test: fn(Option<u64>) -> bool) -> bool {
    let slots = s.now().map_or(&[][..], |now| &now.slots);
    granted(s)
        && slots.iter().any(|&slot| {
            let index = s.before.index_of_base(slot.page);
            index.is_some_and(|index| {
                let list = &s.before.objects[index];
                s.before.clist(slot).is_none()
                    && test(list.mode(slot.password))
                    && s.before.list_pairs(list).any(|at| denies(s, at))
            })
        })
}

/// Granted, with a ban behind the end of a list whose slot stands like this to
/// the granting one.
fn behind_end(s: &Seen, stands: fn(usize, usize) -> bool) -> bool {
    let Some((granting, _, _)) = s.granter() else {
        return false;
    };
    live_lists(s).into_iter().any(|(slot, list)| {
        let mut places = list.words().step_by(2);
        stands(slot, granting) && places.any(|at| denies(s, at))
    })
}
