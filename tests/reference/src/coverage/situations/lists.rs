//! Which Clists are searched, where in them the deciding pair is, and writes
//! into them.

use super::*;

pub(super) const LISTS: &[Situation] = &[
    ("dead slot ahead of the granting one", |s| {
        let (Some((slot, _, _)), Some(now)) = (s.granter(), s.now()) else {
            return false;
        };
        now.slots[..slot]
            .iter()
            .any(|&c| s.before.clist(c).is_none())
    }),
    ("slot dead: object gone", |s| {
        s.judged().is_some()
            && s.now().is_some_and(|f| {
                f.slots
                    .iter()
                    .any(|c| s.before.index_of_base(c.page).is_none())
            })
    }),
    ("slot dead: registration's password", |s| {
        s.judged().is_some() && dead_by(s, |mode| mode == P)
    }),
    ("slot dead: negative mode", |s| {
        s.judged().is_some() && dead_by(s, |mode| mode & NOT != 0 && mode & R != 0)
    }),
    ("slot dead: mode without R", |s| {
        s.judged().is_some() && dead_by(s, |mode| mode & NOT == 0 && mode & R == 0 && mode != P)
    }),
    ("granted in the last slot of eight", |s| {
        s.granter().is_some_and(|(slot, _, _)| slot == 7)
    }),
    ("granted in another domain's Clist", |s| {
        s.granter().is_some_and(|(_, at, _)| at / 2048 != s.domain)
    }),
    ("granted beyond a Clist's first page", |s| {
        let (Some((slot, at, _)), Some(now)) = (s.granter(), s.now()) else {
            return false;
        };
        at / PAGE_WORDS != now.slots[slot].page
    }),
    ("granted by the last pair of a full Clist", |s| {
        let Some((_, at, _)) = s.granter() else {
            return false;
        };
        let list = s.before.index_at(at).map(|i| &s.before.objects[i]);
        list.is_some_and(|o| at + 2 == o.words().end)
    }),
    ("pair for a page above 127 with a known password", |s| {
        let (Some((object, _)), Some(now)) = (s.wanted(), s.now()) else {
            return false;
        };
        s.judged().is_some()
            && now.slots.iter().any(|&c| {
                s.before.clist(c).is_some_and(|list| {
                    s.before.list_pairs(list).any(|at| {
                        let page = s.before.word(at) / 256;
                        page > 127
                            && page % 128 == object.base
                            && object.mode(s.before.word(at + 1)).is_some()
                    })
                })
            })
    }),
    ("WR into the writer's own Clist", |s| {
        let (Call::Wr { address, .. }, Some(now)) = (s.call, s.now()) else {
            return false;
        };
        s.done() && now.slots.iter().any(|c| c.page == address / PAGE_WORDS)
    }),
    ("WR over the pair that granted it", |s| {
        let (Call::Wr { address, .. }, Some((_, at, _))) = (s.call, s.granter()) else {
            return false;
        };
        address & !1 == at
    }),
];

/// Does a slot of the domain name an object by a password of such a mode?
fn dead_by(s: &Seen, test: fn(u64) -> bool) -> bool {
    s.now().is_some_and(|f| {
        f.slots.iter().any(|c| {
            let index = s.before.index_of_base(c.page);
            let mode = index.and_then(|i| s.before.objects[i].mode(c.password));
            mode.is_some_and(test)
        })
    })
}
