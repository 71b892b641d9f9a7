//! Judging over generated runs, worked out in a second way; and modes.

use refmonitor::inputs;
use refmonitor::lines::calls;
use refmonitor::monitor::*;
use refmonitor::random::Random;

/// Does the slot name the object by a password that opens it as a Clist?
fn live(list: &Object, slot: &Capability) -> bool {
    let opens = |p: &Password| p.word != 0 && p.mode < 128 && p.mode % 2 == 1;
    let mut passwords = list.passwords.iter();
    list.base == slot.page && passwords.any(|p| p.word == slot.password && opens(p))
}

/// Every mode that the object has for the password.
fn modes_of(object: &Object, password: u64) -> Vec<u64> {
    let ordinary = object.passwords.iter().filter(|p| p.word == password);
    let mut modes: Vec<u64> = ordinary.map(|p| p.mode).collect();
    let registration = object.registration.as_ref();
    if registration.is_some_and(|r| r.password == password) {
        modes.push(16);
    }
    modes
}

/// Whether a mode grants the wanted rights or denies them, right by right.
fn verdict_of(mode: u64, wanted: u64) -> Option<bool> {
    let held = (0..5).filter(|bit| wanted >> bit & 1 == 1);
    let missing = held.clone().filter(|bit| mode >> bit & 1 == 0).count();
    match mode < 128 {
        true => (missing == 0).then_some(true),
        false => (held.count() > missing).then_some(false),
    }
}

/// Rules 1 to 3 once more, as a list of the verdicts of all pairs in searching
/// order: the pair that grants, or `None` for one that denies. A Clist ends
/// before a pair of zeros.
fn verdicts(monitor: &Monitor, domain: usize, object: &Object, wanted: u64) -> Vec<Option<u64>> {
    let mut verdicts = Vec::new();
    for slot in &monitor.domains[domain].now.slots {
        for list in monitor.objects.iter().filter(|o| live(o, slot)) {
            for at in (0..32 * list.pages).map(|pair| 64 * list.base + 2 * pair) {
                let (word, password) = (monitor.word(at), monitor.word(at + 1));
                if word == 0 && password == 0 {
                    break;
                }
                if word >> 8 != object.base || password == 0 {
                    continue;
                }
                for mode in modes_of(object, password) {
                    let verdict = verdict_of(mode, wanted);
                    verdicts.extend(verdict.map(|grants| grants.then_some(at)));
                }
            }
        }
    }
    verdicts
}

/// The first pair that grants, if none denies.
#[test]
fn judging_agrees_with_a_list_of_verdicts() {
    let mut random = Random::new(5);
    for seed in 400..404 {
        let mut monitor = Monitor::new();
        for (domain, call) in calls(&inputs::input(seed, 4_000)) {
            drop(monitor.call(domain, &call));
            for object in &monitor.objects {
                let (d, wanted) = (random.index(4), 1 + random.below(31));
                let verdicts = verdicts(&monitor, d, object, wanted);
                let grants: Option<Vec<u64>> = verdicts.into_iter().collect();
                assert_eq!(
                    monitor.granting_pair(d, object, wanted),
                    grants.and_then(|grants| grants.first().copied())
                );
            }
        }
    }
}

/// A search ends as it did when the first verdict decided, but for those that
/// were granted with a ban behind: these are refused.
#[test]
fn a_ban_behind_is_all_that_changed() {
    let mut random = Random::new(7);
    let (mut alike, mut changed) = (0, 0);
    for seed in 600..604 {
        let mut monitor = Monitor::new();
        for (domain, call) in calls(&inputs::input(seed, 4_000)) {
            drop(monitor.call(domain, &call));
            for object in &monitor.objects {
                let (d, wanted) = (random.index(4), random.pick(&[1, 1, 2, 4, 8, 15, 16]));
                let verdicts = verdicts(&monitor, d, object, wanted);
                let first = verdicts.first().copied().flatten();
                let banned = verdicts.contains(&None);
                let pair = monitor.granting_pair(d, object, wanted);
                assert_eq!(pair, first.filter(|_| !banned));
                alike += usize::from(pair.is_some());
                changed += usize::from(first.is_some() && banned);
            }
        }
    }
    assert!(alike > 10_000 && changed > 500, "{alike}, {changed}");
}

/// The state with other words behind every object's first zero pair.
fn changed_behind_ends(monitor: &Monitor, random: &mut Random) -> Monitor {
    let mut changed = monitor.clone();
    for object in &monitor.objects {
        let zero = |at: &u64| monitor.word(*at) == 0 && monitor.word(at + 1) == 0;
        let Some(end) = object.words().step_by(2).find(zero) else {
            continue;
        };
        for at in (end + 2..object.words().end).step_by(2) {
            let other = &monitor.objects[random.index(monitor.objects.len())];
            let words = other.all_passwords();
            changed.store[at as usize] = other.base * 256;
            changed.store[at as usize + 1] = words.first().copied().unwrap_or(0);
        }
    }
    changed
}

/// What stands behind the ends of Clists takes no part in judging.
#[test]
fn words_behind_the_ends_do_not_matter() {
    let mut random = Random::new(6);
    let mut granted = 0;
    for seed in 500..503 {
        let mut monitor = Monitor::new();
        for (domain, call) in calls(&inputs::input(seed, 3_000)) {
            drop(monitor.call(domain, &call));
            let changed = changed_behind_ends(&monitor, &mut random);
            for object in &monitor.objects {
                let (d, wanted) = (random.index(4), random.pick(&[1, 1, 2, 4, 8, 15, 16]));
                let pair = monitor.granting_pair(d, object, wanted);
                assert_eq!(pair, changed.granting_pair(d, object, wanted));
                granted += usize::from(pair.is_some());
            }
        }
    }
    assert!(granted > 10_000, "{granted}");
}

#[test]
fn modes() {
    let legal: Vec<u64> = (0..600).filter(|&m| legal_mode(m)).collect();
    let positive: Vec<u64> = (1..=15).collect();
    let negative: Vec<u64> = (129..=159).collect();
    assert_eq!(legal, [positive, negative].concat());
    assert!(!legal_mode(u64::MAX) && !legal_mode((1 << 32) + 1));
}
