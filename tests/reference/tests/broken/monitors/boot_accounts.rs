//! Boots by their limits, home accounts and sets.

use super::*;

pub(super) const BOOT_ACCOUNTS: &[Broken] = &[
    ("a refused BT keeps the new limits", |m, _, d, c| {
        let outcome = m.call(d, c);
        match *c {
            Call::Bt { limits, .. } if outcome == Err(Refusal::Range) => {
                m.limits = limits.map(|limit| limit.min(MAX_LIMIT));
            }
            _ => {}
        }
        outcome
    }),
    ("a refused BT keeps the new sets", |m, _, d, c| {
        let outcome = m.call(d, c);
        match *c {
            Call::Bt { sets, .. } if outcome == Err(Refusal::Range) => {
                m.sets = sets.map(|set| set & MAX_SET);
            }
            _ => {}
        }
        outcome
    }),
    ("a refused BT takes limits and sets away", |m, _, d, c| {
        let outcome = m.call(d, c);
        if matches!(c, Call::Bt { .. }) && outcome.is_err() {
            m.limits = [0; ACCOUNTS];
            m.sets = [0; DOMAINS];
        }
        outcome
    }),
    ("BT keeps the old limits", |m, _, d, c| {
        let old = m.limits;
        let outcome = m.call(d, c);
        if matches!(c, Call::Bt { .. }) && old != [0; ACCOUNTS] {
            m.limits = old;
        }
        outcome
    }),
    ("a limit of 0 is allowed", |m, _, d, c| {
        booted_as(m, d, c, |b| b.limits = b.limits.map(|limit| limit.max(1)))
    }),
    ("a limit above 128 is allowed", |m, _, d, c| {
        booted_as(m, d, c, |b| b.limits = b.limits.map(|limit| limit.min(128)))
    }),
    ("a limit is asked where it can be charged", |m, _, d, c| {
        booted_as(m, d, c, |b| {
            for a in 0..ACCOUNTS {
                if !b.sets.iter().any(|&set| in_set(set, a as u64)) {
                    b.limits[a] = 1;
                }
            }
        })
    }),
    ("home pages are not held to the limit", |m, _, d, c| {
        booted_as(m, d, c, |b| {
            for a in 0..ACCOUNTS {
                if b.limits[a] > 0 {
                    b.limits[a] = b.limits[a].max(home_pages(&b.accounts, a as u64));
                }
            }
        })
    }),
    ("a limit of just the home pages is refused", |m, _, d, c| {
        booted_as(m, d, c, |b| {
            for a in 0..ACCOUNTS {
                if b.limits[a] == home_pages(&b.accounts, a as u64) {
                    b.limits[a] = 0;
                }
            }
        })
    }),
    ("a home account may be outside its set", |m, _, d, c| {
        booted_as(m, d, c, |b| {
            for d in 0..DOMAINS {
                b.sets[d] |= 1 << b.accounts[d].min(3);
            }
        })
    }),
    ("a set above 15 is cut short", |m, _, d, c| {
        booted_as(m, d, c, |b| b.sets = b.sets.map(|set| set & MAX_SET))
    }),
    ("a home account above 3 is cut short", |m, _, d, c| {
        booted_as(m, d, c, |b| {
            b.accounts = b.accounts.map(|account| account % 4)
        })
    }),
    (
        "limits and accounts are asked of some domains",
        |m, _, d, c| booted_as(m, d, c, |b| b.sets[3] = MAX_SET),
    ),
    ("homes are on account 0", |m, _, d, c| {
        let outcome = m.call(d, c);
        if matches!(c, Call::Bt { .. }) && outcome.is_ok() {
            m.objects.iter_mut().for_each(|home| home.account = 0);
        }
        outcome
    }),
    (
        "homes are on the accounts of other domains",
        |m, _, d, c| {
            let outcome = m.call(d, c);
            match *c {
                Call::Bt { accounts, .. } if outcome.is_ok() => {
                    for (home, account) in m.objects.iter_mut().rev().zip(accounts) {
                        home.account = account;
                    }
                }
                _ => {}
            }
            outcome
        },
    ),
    ("limits come in reverse", |m, _, d, c| {
        booted_as(m, d, c, |b| b.limits.reverse())
    }),
    ("home accounts and sets change places", |m, _, d, c| {
        booted_as(m, d, c, |b| std::mem::swap(&mut b.accounts, &mut b.sets))
    }),
];

/// A boot's arguments behind the passwords.
struct Args {
    limits: [u64; ACCOUNTS],
    accounts: [u64; DOMAINS],
    sets: [u64; DOMAINS],
}

/// A boot as though it had other arguments, the other calls as they should be.
fn booted_as(m: &mut Monitor, d: u64, c: &Call, change: fn(&mut Args)) -> Outcome {
    let Call::Bt {
        homes,
        limits,
        accounts,
        sets,
    } = *c
    else {
        return m.call(d, c);
    };
    let mut args = Args {
        limits,
        accounts,
        sets,
    };
    change(&mut args);
    let boot = Call::Bt {
        homes,
        limits: args.limits,
        accounts: args.accounts,
        sets: args.sets,
    };
    m.call(d, &boot)
}
