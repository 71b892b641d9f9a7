//! Bans that count in too few places or in too many, and pairs given that are
//! not the first.

use super::*;

/// The first pair that grants, unless one of these bans is there.
pub(super) fn unless(
    verdicts: &[Verdict],
    counts: impl Fn(&Verdict, &Verdict) -> bool,
) -> Option<u64> {
    let first = verdicts.iter().find(|v| v.grants())?;
    let mut bans = verdicts.iter().filter(|v| v.denies());
    (!bans.any(|ban| counts(first, ban))).then_some(first.at)
}

/// Is the one behind the other in searching order?
fn behind(one: &Verdict, other: &Verdict) -> bool {
    (one.slot, one.at) > (other.slot, other.at)
}

/// The search of document 01: the first pair that grants or denies decides.
pub(super) const FIRST: Judge = Judge {
    given: |verdicts, _| verdicts.first().filter(|v| v.grants()).map(|v| v.at),
    ..RIGHT
};

pub(super) const BANS: &[Broken] = &[
    (
        "the first pair that grants or denies decides",
        |m, _, d, c| FIRST.look(m, d, c),
    ),
    (
        "the last pair that grants or denies decides",
        |m, _, d, c| {
            let given = |verdicts: &[Verdict], _| {
                let last = verdicts.last().filter(|v| v.grants());
                last.and_then(|_| unless(verdicts, |_, _| false))
            };
            Judge { given, ..RIGHT }.look(m, d, c)
        },
    ),
    ("a ban counts only in the list that grants", |m, _, d, c| {
        let given = |verdicts: &[Verdict], _| unless(verdicts, |first, ban| ban.slot == first.slot);
        Judge { given, ..RIGHT }.look(m, d, c)
    }),
    (
        "a ban counts only up to the slot that grants",
        |m, _, d, c| {
            let given =
                |verdicts: &[Verdict], _| unless(verdicts, |first, ban| ban.slot <= first.slot);
            Judge { given, ..RIGHT }.look(m, d, c)
        },
    ),
    (
        "a ban counts only from the slot that grants on",
        |m, _, d, c| {
            let given =
                |verdicts: &[Verdict], _| unless(verdicts, |first, ban| ban.slot >= first.slot);
            Judge { given, ..RIGHT }.look(m, d, c)
        },
    ),
    (
        "a ban counts only behind the pair that grants",
        |m, _, d, c| {
            let given = |verdicts: &[Verdict], _| unless(verdicts, |first, ban| behind(ban, first));
            Judge { given, ..RIGHT }.look(m, d, c)
        },
    ),
    ("a ban counts only in the first slot", |m, _, d, c| {
        let given = |verdicts: &[Verdict], _| unless(verdicts, |_, ban| ban.slot == 0);
        Judge { given, ..RIGHT }.look(m, d, c)
    }),
    (
        "the first pair of each list decides for it",
        |m, _, d, c| {
            let given = |verdicts: &[Verdict], wanted| {
                let mut firsts = verdicts.to_vec();
                firsts.dedup_by_key(|v| v.slot);
                (RIGHT.given)(&firsts, wanted)
            };
            Judge { given, ..RIGHT }.look(m, d, c)
        },
    ),
    ("each ban stops one pair that grants", |m, _, d, c| {
        let given = |verdicts: &[Verdict], _| {
            let bans = verdicts.iter().filter(|v| v.denies()).count();
            let mut grants = verdicts.iter().filter(|v| v.grants());
            grants.nth(bans).map(|v| v.at)
        };
        Judge { given, ..RIGHT }.look(m, d, c)
    }),
    ("the last pair that grants is given", |m, _, d, c| {
        let given = |verdicts: &[Verdict], _| {
            let granted = verdicts.iter().all(Verdict::grants);
            verdicts.last().filter(|_| granted).map(|last| last.at)
        };
        Judge { given, ..RIGHT }.look(m, d, c)
    }),
    ("a ban behind stops W alone", |m, _, d, c| {
        let given = |verdicts: &[Verdict], wanted| {
            unless(verdicts, |first, ban| {
                wanted & W != 0 || !behind(ban, first)
            })
        };
        Judge { given, ..RIGHT }.look(m, d, c)
    }),
    ("a ban behind denies only all", |m, _, d, c| {
        let given = |verdicts: &[Verdict], wanted| {
            unless(verdicts, |first, ban| {
                ban.mode & wanted == wanted || !behind(ban, first)
            })
        };
        Judge { given, ..RIGHT }.look(m, d, c)
    }),
    ("a ban in a locked slot does not count", |m, _, d, c| {
        let Some((at, rights)) = looks(d, c) else {
            return m.call(d, c);
        };
        let index = m.index_at(at).ok_or(Refusal::NotGranted)?;
        let locked = now(m, d).locked;
        let verdicts = RIGHT.verdicts(m, d, &m.objects[index], rights);
        let given = unless(&verdicts, |_, ban| ban.slot >= locked);
        given.map(Done::Value).ok_or(Refusal::NotGranted)
    }),
    (
        "a ban counts in a slot of a dropped password",
        |m, _, d, c| {
            let live = |mode: Option<u64>| is_live(mode) || mode.is_none();
            Judge { live, ..RIGHT }.look_less(m, d, c)
        },
    ),
    (
        "a ban counts in a slot of a mode without R",
        |m, _, d, c| {
            let live = |mode: Option<u64>| {
                is_live(mode) || mode.is_some_and(|mode| mode != P && mode & R == 0)
            };
            Judge { live, ..RIGHT }.look_less(m, d, c)
        },
    ),
    ("a ban counts in a slot of a negative mode", |m, _, d, c| {
        let live = |mode: Option<u64>| is_live(mode) || mode.is_some_and(|mode| mode & NOT != 0);
        Judge { live, ..RIGHT }.look_less(m, d, c)
    }),
    (
        "a ban counts in a slot of a registration's password",
        |m, _, d, c| {
            let live = |mode: Option<u64>| is_live(mode) || mode == Some(P);
            Judge { live, ..RIGHT }.look_less(m, d, c)
        },
    ),
    ("a ban on any object counts", |m, _, d, c| {
        if let Some((_, rights)) = looks(d, c) {
            let mut objects = m.objects.iter();
            let banned =
                objects.any(|o| RIGHT.verdicts(m, d, o, rights).iter().any(Verdict::denies));
            if banned {
                return Err(Refusal::NotGranted);
            }
        }
        m.call(d, c)
    }),
    ("a ban counts by its password alone", |m, _, d, c| {
        let mode = |o: &Object, word, password| {
            let mode = o.mode(password);
            mode.filter(|mode| mode & NOT != 0 || word / 256 == o.base)
        };
        Judge { mode, ..RIGHT }.look(m, d, c)
    }),
    ("a ban in another domain's list counts", |m, _, d, c| {
        if let Some((at, rights)) = looks(d, c) {
            let object = m.index_at(at).map(|index| &m.objects[index]);
            let banned = object.is_some_and(|o| {
                let verdicts = |d| RIGHT.verdicts(m, d, o, rights);
                (0..4).any(|d| verdicts(d).iter().any(Verdict::denies))
            });
            if banned {
                return Err(Refusal::NotGranted);
            }
        }
        m.call(d, c)
    }),
];
