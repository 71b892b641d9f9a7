//! Properties over generated runs.

use refmonitor::coverage::{situations, Coverage, TABLE};
use refmonitor::inputs;
use refmonitor::lines::{calls, BOOT};
use refmonitor::monitor::*;
use std::ops::Range;

#[test]
fn every_answer_situation_and_bound() {
    let mut coverage = Coverage::new();
    for seed in 1001..=1040 {
        coverage.run(&inputs::input(seed, 5_000));
    }
    for (letters, answers) in TABLE {
        let counts: Vec<String> = answers
            .iter()
            .map(|&a| format!("{a}: {}", coverage.times(letters, a)))
            .collect();
        println!("{letters}  {}", counts.join("  "));
    }
    for (name, _) in situations() {
        println!("{:7}  {name}", coverage.situation(name));
    }
    println!("{}", coverage.summary());
    assert_eq!(coverage.lines, 200_000);
    assert_eq!(coverage.missing(), Vec::<String>::new());
    assert_eq!(coverage.strange(), []);
    // Most calls are granted.
    assert!(coverage.done * 100 > coverage.lines * 55);
}

/// A short run does not reach everything, and that is told.
#[test]
fn what_is_missing_is_told() {
    let mut coverage = Coverage::new();
    coverage.run(format!("{BOOT}\n0,RD,0\n0,RD,8192\n").as_bytes());
    let missing = coverage.missing();
    let told = |what: &str| missing.iter().any(|m| m == what);
    assert!(!told("RD with answer 0") && told("RD with answer 7"));
    assert!(!told("RD with number 1 at 8192") && told("RD with number 1 at 8191"));
    assert!(told("RT from the fourth call"));
}

#[test]
fn refused_calls_change_nothing() {
    let mut refused = 0;
    for seed in 100..110 {
        let mut monitor = Monitor::new();
        for (domain, call) in calls(&inputs::input(seed, 10_000)) {
            let before = monitor.clone();
            if monitor.call(domain, &call).is_err() {
                refused += 1;
                assert!(monitor == before, "seed {seed}: {domain} {call:?}");
            }
        }
    }
    assert!(refused > 10_000);
}

#[test]
fn states_stay_sound() {
    for seed in 200..210 {
        let mut monitor = Monitor::new();
        for (domain, call) in calls(&inputs::input(seed, 10_000)) {
            let outcome = monitor.call(domain, &call);
            if outcome.is_ok() {
                assert!(monitor.is_sound(), "seed {seed}: {domain} {call:?}");
            }
        }
    }
}

/// The saved frames, and the present one.
fn frames(domain: &Domain) -> Vec<Frame> {
    let mut frames = domain.saved.clone();
    frames.push(domain.now.clone());
    frames
}

/// What a done call may touch.
fn assert_own_part(before: &Monitor, after: &Monitor, domain: u64, call: &Call) {
    let words =
        |at: Range<u64>| (0..WORDS).all(|i| at.contains(&i) || after.word(i) == before.word(i));
    let own = domain as usize;
    let (was, is) = (&before.domains[own], &after.domains[own]);
    let same_objects = after.objects == before.objects;
    let same_store = after.store == before.store;
    match *call {
        Call::Rd { .. } | Call::Ex { .. } | Call::Lk { .. } | Call::Gt => {
            assert!(after == before)
        }
        Call::Wr { address, value } => {
            assert!(is == was && same_objects && words(address..address + 1));
            assert_eq!(after.word(address), value);
        }
        Call::Cr { page, count, .. } => {
            assert!(is == was && words(page * 64..(page + count) * 64));
            assert!((page * 64..(page + count) * 64).all(|i| after.word(i) == 0));
        }
        Call::Dl { .. } | Call::Ap { .. } | Call::Dp { .. } | Call::Rg { .. } => {
            assert!(is == was && same_store && !same_objects)
        }
        Call::In { .. } | Call::Rm { .. } | Call::Lo { .. } => {
            assert!(same_store && same_objects && is.saved == was.saved);
        }
        Call::Ca { .. } => assert!(same_store && same_objects && is.saved == frames(was)),
        Call::Rt => assert!(same_store && same_objects && was.saved == frames(is)),
        Call::Bt { .. } => {}
    }
}

#[test]
fn done_calls_change_their_own_part() {
    for seed in 300..305 {
        let mut monitor = Monitor::new();
        for (domain, call) in calls(&inputs::input(seed, 5_000)) {
            let before = monitor.clone();
            if monitor.call(domain, &call).is_err() || matches!(call, Call::Bt { .. }) {
                continue;
            }
            let mut others = (0..DOMAINS).filter(|&d| d as u64 != domain);
            assert!(others.all(|d| monitor.domains[d] == before.domains[d]));
            assert_own_part(&before, &monitor, domain, &call);
        }
    }
}

#[test]
fn the_same_seed_gives_the_same_lines() {
    assert_eq!(inputs::input(9, 3000), inputs::input(9, 3000));
    assert_ne!(inputs::input(9, 3000), inputs::input(10, 3000));
}
