//! What the slices may be: wrong lengths, changed bytes, junk before a boot.

use panel::checks::{boots, charges, copied, displaced, flipped, lengths};
use panel::checks::{unreadable, Beside, Flipped};
use panel::stage::stage;
use panel::{full, real, Slices};
use refmonitor::inputs;
use refmonitor::lines::calls;
use refmonitor::monitor::Monitor;

#[test]
fn wrong_lengths() {
    // Six lengths of each slice but the three right ones together, sixteen
    // functions, two domains.
    assert_eq!(lengths(&real), Ok(215 * 16 * 2));
}

#[test]
fn boots_on_junk() {
    assert_eq!(boots(&real, 300), Ok(()));
}

#[test]
fn no_call_takes_an_image_that_does_not_read() {
    assert_eq!(unreadable(&real), Ok(()));
}

/// Accounts, limits and sets up to their bounds read, also where an account is
/// charged more than its limit, and no others. CR is answered by them.
#[test]
fn every_account_limit_and_set() {
    let found = charges(&real).unwrap_or_else(|what| panic!("{what}"));
    // Four accounts of each of five objects, a zero in 27 free places, the limits
    // 0 to 128, the sets 0 to 15; of 256 values at 32, 4 and 4 places.
    let read = 4 * 5 + 27 + 4 * 129 + 4 * 16;
    assert_eq!(found.images.read, read);
    assert_eq!(found.images.refused, 256 * 40 - read);
    assert!(found.above > 4, "{} above a limit", found.above);
    for answer in [0, 5, 9, 14, 15] {
        let times = found.answers.get(&answer).copied().unwrap_or(0);
        assert!(times > 100, "CR with answer {answer}: {times} times");
    }
}

/// RG takes any number as the number of entries; good entries beside it do not
/// make it good.
#[test]
fn any_number_of_entries() {
    let many = [
        0,
        5,
        8,
        255,
        256,
        257,
        1 << 32,
        (1 << 32) + 1,
        1 << 63,
        u64::MAX,
    ];
    for entries in many {
        let mut slices = Slices::of(&stage());
        let before = slices.clone();
        let (i, s, v) = (
            slices.image.lent(),
            slices.store.lent(),
            slices.values.lent(),
        );
        // SAFETY: three slices of their own, each with its length.
        let answer = unsafe {
            reshqobi::sys::reshqobi_rg(
                i.0, i.1, s.0, s.1, v.0, v.1, 0, 0, 25, 0, 11, entries, 5, 5, 5, 5,
            )
        };
        assert_eq!(answer, 5, "{entries}");
        assert_eq!(slices.changed(&before), None, "{entries}");
        assert_eq!(slices.values.bytes(), [0; 88], "{entries}");
    }
}

/// The state and image to which so many lines of a seed lead.
fn reached(seed: u64, lines: u64) -> (Slices, Vec<u64>) {
    let mut beside = Beside::new(&real);
    for (domain, call) in calls(&inputs::input(seed, lines)) {
        beside.call(domain, &call).unwrap();
    }
    (beside.slices, beside.second.store)
}

/// Both kinds of changed image must be met, each more than a hundred times.
fn flips((slices, store): (Slices, Vec<u64>), name: &str) {
    for found in [
        flipped(&real, &slices, &store),
        copied(&real, &slices, &store, 1, 3_000),
        displaced(&real, &slices, &store, 1, 1_000),
    ] {
        let Flipped { read, refused } = found.unwrap_or_else(|what| panic!("{name}: {what}"));
        let both = read > 100 && refused > 100;
        assert!(both, "{name}: {read} read, {refused} refused");
    }
}

#[test]
fn changed_bytes_of_generated_states() {
    for (seed, lines) in [(31, 300), (32, 1_000), (33, 2_500)] {
        flips(reached(seed, lines), &format!("seed {seed}"));
    }
}

#[test]
fn changed_bytes_of_the_full_state() {
    let full = full::full();
    flips((Slices::of(&full), full.store), "full");
}

#[test]
fn changed_bytes_of_the_first_state() {
    let found = flipped(&real, &Slices::of(&Monitor::new()), &Monitor::new().store).unwrap();
    // Limits and sets may be set to 1, but a free object's page count in the
    // first estate alone.
    assert!(found.read > 0 && found.refused > 10_000);
}
