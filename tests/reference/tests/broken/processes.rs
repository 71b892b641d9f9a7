//! The programs as processes.

use refmonitor::compare::{line_count, run_program, Feed, Ran};
use refmonitor::lines::run_bytes;
use std::process::Command;

const REFERENCE: &str = env!("CARGO_BIN_EXE_reference");
const ACCOUNTS: &str = env!("CARGO_BIN_EXE_accounts");

/// The status and the output of a comparison.
fn compare(args: &[&str]) -> (Option<i32>, String) {
    let ran = Command::new(env!("CARGO_BIN_EXE_compare"))
        .args(args)
        .output()
        .unwrap();
    (ran.status.code(), String::from_utf8(ran.stdout).unwrap())
}

#[test]
fn compare_as_a_process() {
    let (status, text) = compare(&[REFERENCE]);
    assert_eq!(status, Some(0), "{text}");
    assert!(text.contains("generated, seeds 1 to 40: 40 inputs, 200000 lines\n"));
    assert!(text
        .lines()
        .last()
        .unwrap()
        .starts_with("no difference in "));

    // Too few lines to reach every answer.
    let (status, text) = compare(&[REFERENCE, "2", "10", "7"]);
    assert_eq!(status, Some(1), "{text}");
    assert!(text.contains("generated, seeds 7 to 8: 2 inputs, 20 lines\n"));
    assert!(text.contains("never reached by the generated lines: CA with answer 11\n"));

    // Another program altogether.
    let (status, text) = compare(&[env!("CARGO_BIN_EXE_workload")]);
    assert_eq!(status, Some(1));
    assert!(text.contains("input, 0 lines:\n") && text.contains("reference:\n"));

    assert_eq!(compare(&["no-such-program"]).0, Some(1));
    for bad in [
        &[][..],
        &["--accounts"],
        &["x", "0"],
        &["x", "1", "y"],
        &["x", "1", "2", "3", "4"],
    ] {
        assert_eq!(compare(bad).0, Some(2));
    }
}

#[test]
fn compare_accounts_as_a_process() {
    let (status, text) = compare(&["--accounts", ACCOUNTS]);
    assert_eq!(status, Some(0), "{text}");
    assert!(text.contains("cases, figures written out: "));
    assert!(text.contains("generated, seeds 1 to 40: 40 inputs, 200000 lines\n"));
    // Each of the two programs in the place of the other.
    assert_eq!(compare(&["--accounts", REFERENCE]).0, Some(1));
    assert_eq!(compare(&[ACCOUNTS]).0, Some(1));
}

#[test]
fn the_programs_run() {
    let generated = Command::new(env!("CARGO_BIN_EXE_generate"))
        .args(["5", "300"])
        .output()
        .unwrap();
    assert_eq!(generated.stdout, refmonitor::inputs::input(5, 300));
    let input = generated.stdout;
    for feed in [Feed::File, Feed::Pipe, Feed::Pieces(100)] {
        let ran = run_program(REFERENCE, &input, feed).unwrap();
        assert_eq!(ran, Ran::well(run_bytes(&input)));
    }
    let work = Command::new(env!("CARGO_BIN_EXE_workload"))
        .arg("1000")
        .output()
        .unwrap();
    assert_eq!(line_count(&work.stdout), 1000);
}
