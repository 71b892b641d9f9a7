//! Accounts charged, limits met and passed, and pages given back.

use super::*;

pub(super) const ACCOUNTS_CHARGED: &[Situation] = &[
    ("CR meets its limit", |s| {
        charge(s).is_some_and(|c| s.done() && c.sum == c.limit && c.limit < MAX_LIMIT)
    }),
    ("CR meets its limit by several pages", |s| {
        charge(s).is_some_and(|c| s.done() && c.sum == c.limit && c.pages > 1)
    }),
    ("CR meets a limit of 128", |s| {
        charge(s).is_some_and(|c| s.done() && c.sum == c.limit && c.limit == MAX_LIMIT)
    }),
    ("CR passes a limit of 127", |s| {
        charge(s).is_some_and(|c| s.refused(Refusal::Limit) && c.limit == 127)
    }),
    ("CR passes its limit by one", |s| {
        charge(s).is_some_and(|c| s.refused(Refusal::Limit) && c.sum == c.limit + 1)
    }),
    ("CR passes its limit, a page less would fit", |s| {
        charge(s)
            .is_some_and(|c| s.refused(Refusal::Limit) && c.pages > 1 && c.sum - c.pages < c.limit)
    }),
    ("CR passes its limit, its pages alone would not", |s| {
        charge(s).is_some_and(|c| s.refused(Refusal::Limit) && c.pages <= c.limit)
    }),
    ("CR passes its limit by other domains' pages", |s| {
        charge(s).is_some_and(|c| s.refused(Refusal::Limit) && c.own + c.pages <= c.limit)
    }),
    ("CR passes its limit by home pages", |s| {
        charge(s).is_some_and(|c| s.refused(Refusal::Limit) && c.sum - c.homes <= c.limit)
    }),
    ("CR passes its limit with eight objects", |s| {
        s.refused(Refusal::Limit) && full(s)
    }),
    ("CR passes its limit inside a call", |s| {
        s.refused(Refusal::Limit) && s.saved() > 0
    }),
    ("CR of an account not permitted with eight objects", |s| {
        s.refused(Refusal::Account) && full(s)
    }),
    ("CR of an account not permitted passes its limit", |s| {
        charge(s).is_some_and(|c| s.refused(Refusal::Account) && c.sum > c.limit)
    }),
    ("CR of an account not permitted inside a call", |s| {
        s.refused(Refusal::Account) && s.saved() > 0
    }),
    ("CR of an account that others may charge", |s| {
        charge(s).is_some_and(|c| {
            s.refused(Refusal::Account) && s.before.sets.iter().any(|&set| in_set(set, c.account))
        })
    }),
    ("CR of an account that nobody may charge", |s| {
        charge(s).is_some_and(|c| {
            s.refused(Refusal::Account)
                && s.booted
                && !s.before.sets.iter().any(|&set| in_set(set, c.account))
        })
    }),
    ("CR of an account next to a permitted one", |s| {
        charge(s).is_some_and(|c| {
            let next = |a| s.d().is_some_and(|d| s.before.permits(d, a));
            s.refused(Refusal::Account) && (next(c.account + 1) || next(c.account.wrapping_sub(1)))
        })
    }),
    ("CR without place of an account not permitted", |s| {
        charge(s).is_some_and(|c| {
            s.refused(Refusal::Place) && s.d().is_some_and(|d| !s.before.permits(d, c.account))
        })
    }),
    ("CR without place passes its limit", |s| {
        charge(s).is_some_and(|c| s.refused(Refusal::Place) && c.sum > c.limit)
    }),
    ("CR of an account above 3, permitted if cut short", |s| {
        let (Call::Cr { account, .. }, Some(d)) = (s.call, s.d()) else {
            return false;
        };
        s.refused(Refusal::Range) && *account > 3 && s.before.permits(d, account % 4)
    }),
    ("CR of the only permitted account", |s| {
        s.done()
            && charge(s).is_some_and(|c| s.d().is_some_and(|d| s.before.sets[d] == 1 << c.account))
    }),
    ("CR of an account that another domain has charged", |s| {
        charge(s).is_some_and(|c| s.done() && c.sum - c.pages > c.own)
    }),
    ("CR of an account without objects", |s| {
        charge(s).is_some_and(|c| s.done() && c.sum == c.pages)
    }),
    ("CR on another account than the home's", |s| {
        charge(s).is_some_and(|c| {
            let home = s.d().and_then(|d| s.before.index_of_base(estate(d).start));
            s.done() && home.is_some_and(|i| s.before.objects[i].account != c.account)
        })
    }),
];

pub(super) const PAGES_BACK: &[Situation] = &[
    ("CR fits by a deletion", |s| fits_by(s, |_| true)),
    ("CR fits by a stranger's deletion", |s| {
        fits_by(s, |deletion| deletion.by != deletion.estate)
    }),
    ("CR fits by one who may not charge the account", |s| {
        fits_by(s, |deletion| !deletion.permitted)
    }),
    ("CR fits by a deletion in another estate", |s| {
        fits_by(s, |deletion| deletion.estate as u64 != s.domain)
    }),
    (
        "CR passes its limit behind a deletion on another account",
        |s| {
            charge(s).is_some_and(|c| {
                let others = (0..ACCOUNTS as u64).filter(|&a| a != c.account);
                let deleted = others.filter_map(|a| s.charges.deleted(a));
                s.refused(Refusal::Limit) && deleted.into_iter().any(|d| d.by as u64 == s.domain)
            })
        },
    ),
    ("DL on an account that the caller may not charge", |s| {
        deleted(s).is_some_and(|o| s.d().is_some_and(|d| !s.before.permits(d, o.account)))
    }),
    ("DL of several pages on a used-up account", |s| {
        deleted(s).is_some_and(|o| o.pages > 1 && !s.before.fits(o.account, 1))
    }),
    ("DL of a home on a used-up account", |s| {
        deleted(s).is_some_and(|o| o.base % ESTATE_PAGES == 0 && !s.before.fits(o.account, 1))
    }),
    ("CR goes by limits from before a refused BT", |s| {
        charge(s).is_some_and(|c| {
            let limits = s.charges.refused().map(|(limits, _)| limits);
            let fits = limits.is_some_and(|limits| c.sum <= limits[c.account as usize]);
            limits.is_some() && (s.done() && !fits || s.refused(Refusal::Limit) && fits)
        })
    }),
    ("CR goes by sets from before a refused BT", |s| {
        charge(s).is_some_and(|c| {
            let sets = s.charges.refused().map(|(_, sets)| sets);
            let in_it = s
                .d()
                .zip(sets)
                .is_some_and(|(d, sets)| in_set(sets[d], c.account));
            sets.is_some() && (s.done() && !in_it || s.refused(Refusal::Account) && in_it)
        })
    }),
];

/// What a CR with an account in range would make of it.
struct Charge {
    account: u64,
    pages: u64,
    limit: u64,
    /// The pages on the account: with the new ones, those of the caller's
    /// estate, and those of homes.
    sum: u64,
    own: u64,
    homes: u64,
}

fn charge(s: &Seen) -> Option<Charge> {
    let Call::Cr { count, account, .. } = *s.call else {
        return None;
    };
    let limit = *s.before.limits.get(account as usize)?;
    let on_it = |test: &dyn Fn(&Object) -> bool| -> u64 {
        let objects = s.before.objects.iter().filter(|o| o.account == account);
        objects.filter(|o| test(o)).map(|o| o.pages).sum()
    };
    (count <= ESTATE_PAGES).then(|| Charge {
        account,
        pages: count,
        limit,
        sum: count + on_it(&|_| true),
        own: on_it(&|o| o.base / ESTATE_PAGES == s.domain),
        homes: on_it(&|o| o.base % ESTATE_PAGES == 0),
    })
}

fn full(s: &Seen) -> bool {
    s.d().is_some_and(|d| s.before.objects_in(d) == MAX_OBJECTS)
}

/// The object of a done DL.
fn deleted<'a>(s: &'a Seen) -> Option<&'a Object> {
    let is = s.done() && matches!(s.call, Call::Dl { .. });
    is.then(|| s.wanted().map(|(object, _)| object)).flatten()
}

/// A done CR that would have passed the limit before the last deletion on its
/// account, which was such a one.
fn fits_by(s: &Seen, test: impl Fn(Deletion) -> bool) -> bool {
    charge(s).is_some_and(|c| {
        let deletion = s.charges.deleted(c.account);
        s.done() && deletion.is_some_and(|d| d.charged + c.pages > c.limit && test(d))
    })
}
