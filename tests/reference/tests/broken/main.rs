//! The comparison: silent on the reference itself, and loud on broken copies.

mod at_end;
mod figures;
mod monitors;
mod outputs;
mod processes;
mod readers;
mod tables;

use refmonitor::compare::{
    differ, line_count, report, search, shortest, Difference, Feed, Other, Plan, Ran, Reference,
    ANSWERS,
};
use refmonitor::lines::run_bytes;
use std::time::Duration;

/// A found difference, shortened; it must still be one, and be short.
#[track_caller]
fn found(name: &str, other: Other, most: usize) -> Difference {
    found_by(ANSWERS, name, other, most)
}

/// The same, beside a reference.
#[track_caller]
fn found_by(reference: Reference, name: &str, other: Other, most: usize) -> Difference {
    let plan = Plan {
        first: 1,
        seeds: 8,
        lines: 2000,
    };
    let Err(found) = search(reference, other, plan, &mut |_| {}) else {
        panic!("{name}: not found");
    };
    let mut short = shortest(other, found.clone(), Duration::from_secs(1)).unwrap();
    // On a slow machine a second may be too short for all that were found.
    if line_count(&short.input) > most {
        short = shortest(other, found, Duration::from_secs(30)).unwrap();
    }
    let lines = line_count(&short.input);
    println!("{name}: {lines} lines\n{}", report(&short));
    assert!(
        differ(reference, other, name, &short.input, Feed::File).is_some(),
        "{name}"
    );
    assert!(lines <= most, "{name}: {lines} lines");
    short
}

const SHORT: Plan = Plan {
    first: 1,
    seeds: 4,
    lines: 3000,
};

#[test]
fn the_reference_agrees_with_itself() {
    let mut same = |input: &[u8], _| Ran::well(run_bytes(input));
    let mut told = Vec::new();
    let compared = search(ANSWERS, &mut same, SHORT, &mut |what| {
        told.push(what.to_string())
    });
    assert!(compared.is_ok_and(|c| c.coverage.lines == 12_000 && c.lines > 100_000));
    assert!(told.contains(&"generated, seeds 1 to 4: 4 inputs, 12000 lines".to_string()));
    let mut same = |input: &[u8], _| monitors::run_broken(|m, _, d, c| m.call(d, c), input);
    assert!(search(ANSWERS, &mut same, SHORT, &mut |_| {}).is_ok());
}
