//! The C functions beside the second implementation, call by call: answers,
//! values, states, stores, and the bytes around them.

use panel::checks::{play, play_displaced};
use panel::real;
use refmonitor::coverage::{Coverage, ORDER, TABLE};
use refmonitor::{cases, inputs};

const SEEDS: std::ops::RangeInclusive<u64> = 1..=10;
const LINES: u64 = 4_000;

fn plays(name: &str, input: &[u8]) -> usize {
    play(&real, input).unwrap_or_else(|what| panic!("{name}: {what}"))
}

/// Every pair of call and answer that can occur is met, and every way in which
/// objects and passwords come and go among others.
#[test]
fn generated_calls() {
    let (mut coverage, mut calls) = (Coverage::new(), 0);
    for seed in SEEDS {
        let input = inputs::input(seed, LINES);
        coverage.run(&input);
        calls += plays(&format!("seed {seed}"), &input);
    }
    assert!(calls > 30_000, "{calls} calls");
    for (letters, answers) in TABLE {
        for &answer in answers.iter().filter(|&&answer| answer != 1) {
            assert!(
                coverage.times(letters, answer) > 0,
                "{letters} with answer {answer}"
            );
        }
    }
    for (name, _) in ORDER {
        assert!(coverage.situation(name) > 0, "{name}");
    }
}

/// With objects or passwords in other places no call takes the image.
#[test]
fn generated_calls_in_other_places() {
    for seed in 101..=103 {
        let count = play_displaced(&real, &inputs::input(seed, LINES), seed);
        assert!(
            count.as_ref().is_ok_and(|&n| n > 500),
            "seed {seed}: {count:?}"
        );
    }
}

#[test]
fn damaged_lines() {
    let mut calls = 0;
    for seed in 1..=2 * inputs::RUBBISH {
        calls += plays(
            &format!("damaged, seed {seed}"),
            &inputs::rubbish(seed, 1_000),
        );
    }
    assert!(calls > 5_000, "{calls} calls");
}

#[test]
fn written_cases_and_every_range() {
    for case in cases::all() {
        plays(&case.name, &case.input);
    }
    plays("every range", &inputs::sweep());
}

/// There is no state beside the slices: four runs at the same time.
#[test]
fn calls_at_the_same_time() {
    std::thread::scope(|scope| {
        for seed in 201..=204 {
            let input = inputs::input(seed, 2_000);
            scope.spawn(move || plays(&format!("seed {seed}"), &input));
        }
    });
}
