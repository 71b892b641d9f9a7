//! Accounts over generated runs.

use refmonitor::inputs;
use refmonitor::lines::calls;
use refmonitor::monitor::*;
use std::collections::BTreeSet;

/// The pages of granted creations since the boot, homes included, less those of
/// granted deletions, are those of the objects that stand.
#[test]
fn figures_are_creations_less_deletions() {
    let (mut created, mut deleted) = (0, 0);
    for seed in 600..610 {
        let mut monitor = Monitor::new();
        let mut books = [0; ACCOUNTS];
        for (domain, call) in calls(&inputs::input(seed, 5_000)) {
            let before = monitor.clone();
            if monitor.call(domain, &call).is_err() {
                continue;
            }
            match call {
                Call::Bt { accounts, .. } => {
                    books = [0, 1, 2, 3].map(|account| home_pages(&accounts, account));
                }
                Call::Cr { account, count, .. } => {
                    books[account as usize] += count;
                    created += 1;
                }
                Call::Dl { base } => {
                    let object = &before.objects[before.index_of_base(base).unwrap()];
                    books[object.account as usize] -= object.pages;
                    deleted += 1;
                }
                _ => {}
            }
            assert_eq!(monitor.figures(), books, "seed {seed}: {domain} {call:?}");
        }
    }
    assert!(created > 1000 && deleted > 200, "{created} and {deleted}");
}

/// No limit is passed, and an object is on an account that its estate's domain
/// may charge; without a boot nothing stands.
#[test]
fn limits_and_sets_hold() {
    for seed in 610..616 {
        let mut monitor = Monitor::new();
        for (domain, call) in calls(&inputs::input(seed, 5_000)) {
            drop(monitor.call(domain, &call));
            let figures = monitor.figures();
            assert!((0..ACCOUNTS).all(|a| figures[a] <= monitor.limits[a]));
            let permitted = |o: &Object| {
                let estate = (o.base / ESTATE_PAGES) as usize;
                monitor.permits(estate, o.account)
            };
            assert!(monitor.objects.iter().all(permitted), "seed {seed}");
            let booted = monitor.limits != [0; ACCOUNTS];
            assert!(booted || monitor.objects.is_empty());
        }
    }
}

/// Only a boot changes limits and sets.
#[test]
fn limits_and_sets_stay() {
    for seed in 616..620 {
        let mut monitor = Monitor::new();
        for (domain, call) in calls(&inputs::input(seed, 5_000)) {
            let (limits, sets) = (monitor.limits, monitor.sets);
            let done = monitor.call(domain, &call).is_ok();
            if let (Call::Bt { limits, sets, .. }, true) = (&call, done) {
                assert_eq!((monitor.limits, monitor.sets), (*limits, *sets));
            } else {
                assert_eq!((monitor.limits, monitor.sets), (limits, sets));
            }
        }
    }
}

/// The sweep charges an account to every limit, and passes every one by a page
/// but that of 128, which is all there is.
#[test]
fn every_limit_is_met_and_passed() {
    let (mut met, mut passed) = (BTreeSet::new(), BTreeSet::new());
    let mut monitor = Monitor::new();
    for (domain, call) in calls(&inputs::sweep()) {
        let charged = monitor.figures();
        let outcome = monitor.call(domain, &call);
        let Call::Cr {
            account: account @ 0..=3,
            count,
            ..
        } = call
        else {
            continue;
        };
        let (charged, limit) = (charged[account as usize], monitor.limits[account as usize]);
        match outcome {
            Ok(_) if charged + count == limit => met.insert(limit),
            Err(Refusal::Limit) if charged + count == limit + 1 => passed.insert(limit),
            _ => continue,
        };
    }
    assert!(met.into_iter().eq(1..=128));
    assert!(passed.into_iter().eq(1..=127));
}

/// A state is sound with more charged than a limit, and with limits and sets of
/// any value up to 128 and 15; not beyond.
#[test]
fn sound_limits_and_sets() {
    let mut monitor = Monitor::new();
    assert!(monitor.is_sound());
    monitor.objects.push(Object::new(0, 32, 5, 3));
    assert!(monitor.is_sound());
    monitor.limits = [128, 0, 1, 31];
    monitor.sets = [15, 0, 8, 1];
    assert!(monitor.is_sound());
    let broken: [fn(&mut Monitor); 4] = [
        |m| m.limits[0] = 129,
        |m| m.limits[3] = u64::MAX,
        |m| m.sets[1] = 16,
        |m| m.objects[0].account = 4,
    ];
    for change in broken {
        let mut other = monitor.clone();
        change(&mut other);
        assert!(!other.is_sound());
    }
}
