//! Accounts: what is charged, against which limit, and who may charge it.

use super::*;

pub(super) const ACCOUNTS_BROKEN: &[Broken] = &[
    ("a creation is not charged", |m, _, d, c| {
        with_limits(m, d, c, |m, a| m.limits[a] + pages(m, a, |o| !is_home(o)))
    }),
    ("home pages are not counted", |m, _, d, c| {
        with_limits(m, d, c, |m, a| m.limits[a] + pages(m, a, is_home))
    }),
    ("15 at the limit", |m, _, d, c| {
        with_limits(m, d, c, |m, a| m.limits[a].saturating_sub(1))
    }),
    ("a page above the limit passes", |m, _, d, c| {
        with_limits(m, d, c, |m, a| m.limits[a] + 1)
    }),
    ("the new pages alone are held to the limit", |m, _, d, c| {
        with_limits(m, d, c, |m, a| m.limits[a] + m.charged(a as u64))
    }),
    ("the old pages alone are held to the limit", |m, _, d, c| {
        with_limits(m, d, c, |m, a| {
            m.limits[a] + 31 * u64::from(m.fits(a as u64, 1))
        })
    }),
    ("the caller's estate alone is counted", |m, _, d, c| {
        with_limits(m, d, c, |m, a| {
            m.limits[a] + pages(m, a, |o| o.base / ESTATE_PAGES != d)
        })
    }),
    ("objects on every account are counted", |m, _, d, c| {
        with_limits(m, d, c, |m, a| {
            let others = m.figures().iter().sum::<u64>() - m.charged(a as u64);
            m.limits[a].saturating_sub(others)
        })
    }),
    ("objects are counted and not pages", |m, _, d, c| {
        with_limits(m, d, c, |m, a| {
            m.limits[a] + pages(m, a, |_| true) - count(m, a)
        })
    }),
    ("the limit is that of the next account", |m, _, d, c| {
        with_limits(m, d, c, |m, a| m.limits[(a + 1) % 4])
    }),
    ("a limit of 127 is none", |m, _, d, c| {
        with_limits(m, d, c, |m, a| match m.limits[a] {
            127.. => 1000,
            limit => limit,
        })
    }),
    ("14 behind 15", |m, _, d, c| {
        second(m, d, c, Refusal::Account, |m, d, run| {
            (!m.fits(run.account, run.count))
                .then_some(Refusal::Limit)
                .filter(|_| d < 4)
        })
    }),
    ("14 behind 11", |m, _, d, c| {
        second(m, d, c, Refusal::Account, |m, d, _| full(m, d))
    }),
    ("15 behind 11", |m, _, d, c| {
        second(m, d, c, Refusal::Limit, |m, d, _| full(m, d))
    }),
    ("9 behind 14", |m, _, d, c| {
        second(m, d, c, Refusal::Place, |m, d, run| {
            (!m.permits(d, run.account)).then_some(Refusal::Account)
        })
    }),
    ("9 behind 15", |m, _, d, c| {
        second(m, d, c, Refusal::Place, |m, d, run| {
            let passes = m.permits(d, run.account) && !m.fits(run.account, run.count);
            passes.then_some(Refusal::Limit)
        })
    }),
    ("14 for an account above 3", |m, _, d, c| {
        match (c, m.call(d, c)) {
            (Call::Cr { account: 4.., .. }, Err(Refusal::Range)) => Err(Refusal::Account),
            (_, outcome) => outcome,
        }
    }),
    ("an account above 3 is cut short", |m, _, d, c| {
        let mut call = c.clone();
        if let Call::Cr { account, .. } = &mut call {
            *account %= 4;
        }
        m.call(d, &call)
    }),
    ("the bits of a set are shifted", |m, _, d, c| {
        with_sets(m, d, c, |sets, d| sets[d] << 1)
    }),
    ("the bits of a set are in reverse", |m, _, d, c| {
        with_sets(m, d, c, |sets, d| {
            (0..4).map(|a| (sets[d] >> a & 1) << (3 - a)).sum()
        })
    }),
    ("a set is read as a number", |m, _, d, c| {
        with_sets(m, d, c, |sets, d| (1 << sets[d].min(4)) - 1)
    }),
    ("every account is permitted", |m, _, d, c| {
        with_sets(m, d, c, |_, _| MAX_SET)
    }),
    ("the first account of a set alone", |m, _, d, c| {
        with_sets(m, d, c, |sets, d| sets[d] & sets[d].wrapping_neg())
    }),
    ("the set of another domain", |m, _, d, c| {
        with_sets(m, d, c, |sets, d| sets[(d + 1) % 4])
    }),
    ("inside a call another domain's set", |m, _, d, c| {
        match m.domains.get(d as usize) {
            Some(domain) if !domain.saved.is_empty() => {
                with_sets(m, d, c, |sets, d| sets[(d + 1) % 4])
            }
            _ => m.call(d, c),
        }
    }),
    ("every object is on account 0", |m, _, d, c| {
        on_account(m, d, c, |_, _| 0)
    }),
    ("a new object is on the home's account", |m, _, d, c| {
        on_account(m, d, c, |m, o| {
            let home = o.base / ESTATE_PAGES * ESTATE_PAGES;
            m.index_of_base(home)
                .map_or(o.account, |i| m.objects[i].account)
        })
    }),
    ("an account of 1 is charged as 2", |m, _, d, c| {
        on_account(m, d, c, |_, o| if o.account == 1 { 2 } else { o.account })
    }),
    ("CR before a boot passes", |m, _, d, c| {
        if m.sets != [0; DOMAINS] || !matches!(c, Call::Cr { .. }) {
            return m.call(d, c);
        }
        m.limits = [MAX_LIMIT; ACCOUNTS];
        with_sets(m, d, c, |_, _| MAX_SET)
    }),
    ("CR before a boot is 15", |m, _, d, c| {
        match (c, m.call(d, c)) {
            (Call::Cr { .. }, Err(Refusal::Account)) if m.sets == [0; DOMAINS] => {
                Err(Refusal::Limit)
            }
            (_, outcome) => outcome,
        }
    }),
];

/// A CR's account and page count.
struct Run {
    account: u64,
    count: u64,
}

/// A call that is refused by `first`, and may have a second reason: that one
/// is told in its place.
fn second(
    m: &mut Monitor,
    d: u64,
    c: &Call,
    first: Refusal,
    other: fn(&Monitor, usize, Run) -> Option<Refusal>,
) -> Outcome {
    let outcome = m.call(d, c);
    match *c {
        Call::Cr { account, count, .. } if outcome == Err(first) => {
            let refusal = other(m, d as usize, Run { account, count });
            Err(refusal.unwrap_or(first))
        }
        _ => outcome,
    }
}

fn full(m: &Monitor, d: usize) -> Option<Refusal> {
    (m.objects_in(d) == MAX_OBJECTS).then_some(Refusal::Full)
}

fn is_home(object: &Object) -> bool {
    object.base.is_multiple_of(ESTATE_PAGES)
}

/// The pages of such objects on the account.
fn pages(m: &Monitor, account: usize, test: impl Fn(&Object) -> bool) -> u64 {
    let objects = m.objects.iter().filter(|o| o.account == account as u64);
    objects.filter(|o| test(o)).map(|o| o.pages).sum()
}

fn count(m: &Monitor, account: usize) -> u64 {
    let objects = m.objects.iter().filter(|o| o.account == account as u64);
    objects.count() as u64
}

/// CR by other limits, the other calls as they should be.
pub(super) fn with_limits(
    m: &mut Monitor,
    d: u64,
    c: &Call,
    limit: impl Fn(&Monitor, usize) -> u64,
) -> Outcome {
    if !matches!(c, Call::Cr { .. }) {
        return m.call(d, c);
    }
    let limits = m.limits;
    m.limits = [0, 1, 2, 3].map(|account| limit(m, account));
    let outcome = m.call(d, c);
    m.limits = limits;
    outcome
}

/// CR by other sets.
fn with_sets(m: &mut Monitor, d: u64, c: &Call, set: fn(&[u64; 4], usize) -> u64) -> Outcome {
    if !matches!(c, Call::Cr { .. }) {
        return m.call(d, c);
    }
    let sets = m.sets;
    m.sets = [0, 1, 2, 3].map(|domain| set(&sets, domain));
    let outcome = m.call(d, c);
    m.sets = sets;
    outcome
}

/// A new object comes to stand on another account.
fn on_account(m: &mut Monitor, d: u64, c: &Call, account: fn(&Monitor, &Object) -> u64) -> Outcome {
    let outcome = m.call(d, c);
    if matches!(c, Call::Cr { .. }) && outcome.is_ok() {
        let last = m.objects.len() - 1;
        m.objects[last].account = account(m, &m.objects[last]);
    }
    outcome
}
