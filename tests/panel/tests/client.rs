//! The Rust client's methods beside the second implementation, call by call.

use panel::answer;
use panel::checks::same_state;
use refmonitor::inputs;
use refmonitor::lines::calls;
use refmonitor::monitor::Monitor;

/// The same answers, states and stores; on a refusal nothing changes.
fn plays(name: &str, input: &[u8]) -> usize {
    let (mut client, mut second) = (reshqobi::Monitor::new(), Monitor::new());
    let calls = calls(input);
    for (domain, call) in &calls {
        let before = client.clone();
        let outcome = answer(&mut client, *domain, call);
        assert_eq!(
            outcome,
            second.call(*domain, call),
            "{name}: {call:?} by {domain}"
        );
        let same = same_state(client.image(), client.store(), &second);
        assert_eq!(same, Ok(()), "{name}: {call:?} by {domain}");
        assert!(
            outcome.is_ok() || client == before,
            "{name}: {call:?} by {domain}"
        );
    }
    let words = (0..8192).map(|address| client.word(address).unwrap());
    assert_eq!(words.collect::<Vec<_>>(), second.store, "{name}");
    calls.len()
}

#[test]
fn generated_lines() {
    let seeds = (11..=16).map(|seed| plays(&format!("seed {seed}"), &inputs::input(seed, 4_000)));
    assert!(seeds.sum::<usize>() > 18_000);
}

#[test]
fn damaged_lines() {
    let seeds = 33..=32 + inputs::RUBBISH;
    let seeds = seeds.map(|seed| {
        plays(
            &format!("damaged, seed {seed}"),
            &inputs::rubbish(seed, 1_000),
        )
    });
    assert!(seeds.sum::<usize>() > 2_000);
}

/// A client that goes on from the bytes of another is the same one.
#[test]
fn going_on_from_bytes() {
    let mut client = reshqobi::Monitor::new();
    for (domain, call) in calls(&inputs::input(17, 1_000)) {
        let mut other = reshqobi::Monitor::from_bytes(client.image(), client.store()).unwrap();
        assert_eq!(
            answer(&mut client, domain, &call),
            answer(&mut other, domain, &call)
        );
        assert_eq!(client, other);
    }
}
