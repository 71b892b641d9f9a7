//! The written cases: the paper's listing, edges and traps, the readings, the
//! ends of Clists, bans, and lines that cannot be read.

use refmonitor::cases;
use refmonitor::lines::run_bytes;

#[test]
fn every_written_case() {
    for case in cases::all() {
        let output = run_bytes(&case.input);
        let lines = case.input.split_inclusive(|&b| b == b'\n');
        let wanted = case.output.split_inclusive(|&b| b == b'\n').skip(1);
        let got = output.split_inclusive(|&b| b == b'\n').skip(1);
        for ((line, wanted), got) in lines.zip(wanted).zip(got) {
            let line = line.escape_ascii();
            let (wanted, got) = (wanted.escape_ascii(), got.escape_ascii());
            assert_eq!(wanted.to_string(), got.to_string(), "{}: {line}", case.name);
        }
        assert!(output == case.output, "{}", case.name);
    }
}

#[test]
fn the_cases_stand_after_the_listing() {
    let listing = cases::LISTING.as_bytes();
    let cases = cases::paper();
    let edges: Vec<_> = cases
        .iter()
        .filter(|c| c.name.starts_with("edge"))
        .collect();
    assert_eq!(edges.len(), 6);
    assert!(edges.iter().all(|c| c.input.starts_with(listing)));
    assert_eq!(run_bytes(listing), cases::ANSWERS.as_bytes());
}
