//! The mode table: the right one passes, and each kind of wrong one is found.

use refmonitor::lines::run_bytes;
use refmonitor::modes::{block, by_rule, chart, printed, trials, LEGAL, MODES};
use std::fs;
use std::path::Path;

fn right() -> Vec<bool> {
    printed(&by_rule()).unwrap()
}

/// The right entries, but for one mode.
fn flipped(mode: usize) -> Vec<bool> {
    let mut entries = right();
    entries[mode] = !entries[mode];
    entries
}

fn text(entries: &[bool]) -> String {
    let line = |&legal: &bool| if legal { "1\n" } else { "0\n" };
    entries.iter().map(line).collect()
}

#[test]
fn forty_six_of_256() {
    assert_eq!(right().len(), MODES);
    assert_eq!(right().iter().filter(|&&legal| legal).count(), LEGAL);
    assert_eq!(text(&right()), by_rule());
}

#[test]
fn a_wrong_text_is_found() {
    let right = by_rule();
    let last = right.strip_suffix('\n').unwrap();
    let short = right.strip_suffix("0\n").unwrap();
    let reversed: String = right
        .lines()
        .rev()
        .map(|line| format!("{line}\n"))
        .collect();
    let wrong = [
        format!("legal\n{right}"),
        format!("{right}0\n"),
        format!("{right}\n"),
        right.replace('1', "2"),
        right.replace('\n', "\r\n"),
        right.replace('\n', ""),
        String::new(),
    ];
    let wrong = wrong.iter().map(String::as_str);
    for text in wrong.chain([last, short, &reversed]) {
        assert!(printed(text).is_err(), "{text:?}");
    }
    for mode in 0..MODES {
        assert!(printed(&text(&flipped(mode))).is_err(), "{mode}");
    }
}

#[test]
fn a_table_that_is_not_in_use_is_found() {
    let answers = |entries: &[bool]| {
        let (input, output) = trials(entries);
        (run_bytes(input.as_bytes()), output.into_bytes())
    };
    let (got, expected) = answers(&right());
    assert_eq!(got, expected);
    for mode in 0..MODES {
        let (got, expected) = answers(&flipped(mode));
        assert_ne!(got, expected, "{mode}");
    }
}

#[test]
fn a_wrong_chart_is_found() {
    let path = Path::new(env!("CARGO_MANIFEST_DIR")).join("../../docs/MODES.md");
    let document = fs::read_to_string(path).unwrap();
    assert_eq!(block(&document), chart(&right()));
    for mode in 0..MODES {
        assert_ne!(block(&document), chart(&flipped(mode)), "{mode}");
    }
    assert_ne!(block(&document.replace("1 RWXD", "1 RWX")), chart(&right()));
    assert_ne!(block(&document.replacen("    ", "", 1)), chart(&right()));
    assert_ne!(block(&(document + "    0\n")), chart(&right()));
}
