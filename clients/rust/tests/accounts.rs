//! Accounts: what a boot says of them, and what a creation may charge.

use reshqobi::*;

/// Account 1 has room for two pages beside domain 1's home; domain 0 may charge
/// accounts 0 and 1, domain 1 account 1 alone.
const PLAN: Plan = Plan {
    homes: [11, 12, 13, 14],
    limits: [128, 3, 1, 1],
    accounts: [0, 1, 2, 3],
    sets: [3, 2, 4, 8],
};

fn booted() -> Monitor {
    let mut monitor = Monitor::new();
    monitor.boot(0, PLAN).unwrap();
    monitor
}

/// Up to the limit a creation is done, beyond it refused; a deletion gives the
/// pages back.
#[test]
fn a_limit_is_met_and_not_passed() {
    let mut monitor = booted();
    assert_eq!(monitor.create(0, 1, 3, 21, 1), Err(Refusal::LimitPassed));
    assert_eq!(monitor.create(0, 1, 2, 21, 1), Ok(()));
    assert_eq!(monitor.create(1, 33, 1, 31, 1), Err(Refusal::LimitPassed));
    monitor.write(0, 2, 256).unwrap();
    monitor.write(0, 3, 21).unwrap();
    monitor.delete(0, 1).unwrap();
    assert_eq!(monitor.create(1, 33, 1, 31, 1), Ok(()));
}

#[test]
fn an_account_is_charged_by_its_set() {
    let mut monitor = booted();
    let before = monitor.clone();
    for (domain, account) in [(0, 2), (0, 3), (1, 0), (1, 2), (2, 1), (3, 0)] {
        let answer = monitor.create(domain, 32 * domain + 1, 1, 21, account);
        assert_eq!(answer, Err(Refusal::NotPermitted), "{domain} on {account}");
        assert_eq!(monitor, before);
    }
    for account in [4, 256, 1 << 32, u64::MAX] {
        let answer = monitor.create(0, 1, 1, 21, account);
        assert_eq!(answer, Err(Refusal::OutOfRange), "{account}");
    }
}

/// The image has the account of each object, the limits and the sets.
#[test]
fn accounts_stand_in_the_image() {
    let mut monitor = booted();
    monitor.create(0, 1, 2, 21, 1).unwrap();
    let image = monitor.image();
    let homes = [0, 1, 2, 3].map(|d| image[520 * d + 64]);
    assert_eq!(homes, [0, 1, 2, 3]);
    assert_eq!(image[65 + 64], 1);
    assert_eq!(image[3584..], [128, 3, 1, 1, 3, 2, 4, 8]);
}

type Change = fn(&mut Plan);

/// Each number of a plan has its bounds; a refused boot leaves all as it was.
#[test]
fn a_plan_out_of_range() {
    let wrong: [(&str, Change); 9] = [
        ("no password", |p| p.homes[3] = 0),
        ("a limit of 0", |p| p.limits[0] = 0),
        ("a limit of 129", |p| p.limits[3] = 129),
        ("account 4", |p| p.accounts[2] = 4),
        ("a set of 16", |p| p.sets[0] = 16),
        ("a set of 16 more", |p| p.sets[3] += 16),
        ("an empty set", |p| p.sets[1] = 0),
        ("a home account outside its set", |p| p.accounts[0] = 2),
        ("no room for two homes", |p| {
            (p.accounts[3], p.sets[3]) = (2, 12)
        }),
    ];
    let mut monitor = booted();
    let before = monitor.clone();
    for (name, change) in wrong {
        let mut plan = PLAN;
        change(&mut plan);
        let answer = monitor.boot(0, plan);
        assert_eq!(answer, Err(Refusal::OutOfRange), "{name}");
        assert_eq!(monitor, before, "{name}");
    }
}

/// A creation before any boot finds no account that it may charge.
#[test]
fn before_a_boot_sets_are_empty() {
    let mut monitor = Monitor::new();
    for account in 0..4 {
        let answer = monitor.create(0, 1, 1, 21, account);
        assert_eq!(answer, Err(Refusal::NotPermitted), "{account}");
    }
}
