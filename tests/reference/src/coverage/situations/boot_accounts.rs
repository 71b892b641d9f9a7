//! Boots by their limits, home accounts and sets.

use super::*;

pub(super) const BOOT_ACCOUNTS: &[Situation] = &[
    ("BT with limits of just the home pages", |s| {
        boot(s).is_some_and(|b| {
            s.done() && (0..4).any(|a| b.homes_on(a) > 0 && b.homes_on(a) == b.limits[a])
        })
    }),
    ("BT with a limit of just four home pages", |s| {
        boot(s).is_some_and(|b| s.done() && (0..4).any(|a| b.homes_on(a) == 4 && b.limits[a] == 4))
    }),
    ("BT with a limit one below the home pages", |s| {
        boot(s).is_some_and(|b| {
            let short = |a| b.homes_on(a) > 1 && b.limits[a] == b.homes_on(a) - 1;
            refused_alone(s, &b, Fault::Limit) && (0..4).any(short)
        })
    }),
    ("BT with a limit of 0 and no home pages", |s| {
        boot(s).is_some_and(|b| {
            refused_alone(s, &b, Fault::Limit)
                && (0..4).any(|a| b.limits[a] == 0 && b.homes_on(a) == 0)
        })
    }),
    ("BT with a limit above 128", |s| {
        boot(s).is_some_and(|b| {
            refused_alone(s, &b, Fault::Limit) && b.limits.iter().any(|&limit| limit > MAX_LIMIT)
        })
    }),
    (
        "BT with a bad limit of an account that nobody may charge",
        |s| {
            boot(s).is_some_and(|b| {
                let nobody = |a| !b.sets.iter().any(|&set| in_set(set, a as u64));
                let bad = |a: usize| !(1..=MAX_LIMIT).contains(&b.limits[a]);
                refused_alone(s, &b, Fault::Limit) && (0..4).any(|a| bad(a) && nobody(a))
            })
        },
    ),
    ("BT with an account that nobody may charge", |s| {
        let nobody = |b: &Boot| (0..4).any(|a| !b.sets.iter().any(|&set| in_set(set, a)));
        s.done() && boot(s).is_some_and(|b| nobody(&b))
    }),
    ("BT with a home account outside its set", |s| {
        boot(s).is_some_and(|b| {
            let outside = |d: usize| b.sets[d] != 0 && b.accounts[d] < 4;
            refused_alone(s, &b, Fault::Set)
                && b.sets.iter().all(|&set| set <= MAX_SET)
                && (0..DOMAINS).any(|d| outside(d) && !in_set(b.sets[d], b.accounts[d]))
        })
    }),
    ("BT with an empty set", |s| {
        boot(s).is_some_and(|b| refused_alone(s, &b, Fault::Set) && b.sets.contains(&0))
    }),
    ("BT with a set above 15 that holds its home account", |s| {
        boot(s).is_some_and(|b| {
            let held = |d: usize| b.sets[d] > MAX_SET && in_set(b.sets[d], b.accounts[d]);
            refused_alone(s, &b, Fault::Set) && (0..DOMAINS).any(held)
        })
    }),
    ("BT with a home account above 3", |s| {
        boot(s).is_some_and(|b| {
            refused_alone(s, &b, Fault::Set) && b.accounts.iter().any(|&account| account > 3)
        })
    }),
    (
        "BT with a home account above 3, in its set if cut short",
        |s| {
            boot(s).is_some_and(|b| {
                let cut = |d: usize| b.accounts[d] > 3 && in_set(b.sets[d], b.accounts[d] % 4);
                refused_alone(s, &b, Fault::Set) && (0..DOMAINS).any(cut)
            })
        },
    ),
    ("BT with four homes on one account", |s| {
        boot(s).is_some_and(|b| s.done() && (0..4).any(|a| b.homes_on(a) == 4))
    }),
    ("BT with each home on an account of its own", |s| {
        boot(s).is_some_and(|b| s.done() && (0..4).all(|a| b.homes_on(a) == 1))
    }),
    ("BT with a limit of 1", |s| {
        boot(s).is_some_and(|b| s.done() && b.limits.contains(&1))
    }),
    ("BT with sets that share no account", |s| {
        boot(s).is_some_and(|b| {
            let alone = |a| b.sets.iter().filter(|&&set| in_set(set, a)).count() < 2;
            s.done() && (0..4).all(alone)
        })
    }),
    ("BT over a used-up account", |s| {
        let used = |a| s.before.charged(a) > 0 && !s.before.fits(a, 1);
        s.done() && boot(s).is_some() && (0..4).any(used)
    }),
];

/// The arguments of a boot.
struct Boot {
    homes: [u64; DOMAINS],
    limits: [u64; ACCOUNTS],
    accounts: [u64; DOMAINS],
    sets: [u64; DOMAINS],
}

impl Boot {
    fn homes_on(&self, account: usize) -> u64 {
        home_pages(&self.accounts, account as u64)
    }
}

/// What is wrong with a boot that has nothing else wrong.
#[derive(PartialEq, Eq)]
enum Fault {
    Limit,
    Set,
}

fn boot(s: &Seen) -> Option<Boot> {
    let Call::Bt {
        homes,
        limits,
        accounts,
        sets,
    } = *s.call
    else {
        return None;
    };
    s.d().map(|_| Boot {
        homes,
        limits,
        accounts,
        sets,
    })
}

/// Refused, and all but the limits, or all but a home account and its set, is
/// in range.
fn refused_alone(s: &Seen, b: &Boot, fault: Fault) -> bool {
    let limits = (0..ACCOUNTS)
        .all(|a| (1..=MAX_LIMIT).contains(&b.limits[a]) && b.homes_on(a) <= b.limits[a]);
    let sets = (0..DOMAINS).all(|d| b.sets[d] <= MAX_SET && in_set(b.sets[d], b.accounts[d]));
    s.refused(Refusal::Range)
        && !b.homes.contains(&0)
        && (limits || fault == Fault::Limit)
        && (sets || fault == Fault::Set)
}
