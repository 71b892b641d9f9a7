//! Broken programs that print the pages of accounts.

mod books;
mod printed;

use crate::{found_by, SHORT};
use books::{by_books, entry, Entry, BOOKS};
use printed::{COUNTED, PRINTED};
use refmonitor::compare::{search, Feed, Ran, FIGURES};
use refmonitor::figures::{in_form, run_bytes};

#[test]
fn the_program_agrees_with_itself() {
    let mut same = |input: &[u8], _| Ran::well(run_bytes(input));
    assert!(search(FIGURES, &mut same, SHORT, &mut |_| {}).is_ok());
    let right: Entry = |books, m, _, c, o| entry(books, m, c, o);
    let mut same = |input: &[u8], _: Feed| Ran::well(by_books(input, right));
    assert!(search(FIGURES, &mut same, SHORT, &mut |_| {}).is_ok());
}

#[test]
fn broken_figures_are_found() {
    for (name, program) in PRINTED.into_iter().chain(COUNTED) {
        found_by(FIGURES, name, &mut |input, _| Ran::well(program(input)), 12);
    }
    for (name, entry) in BOOKS {
        let mut other = |input: &[u8], _: Feed| Ran::well(by_books(input, entry));
        found_by(FIGURES, name, &mut other, 20);
    }
}

#[test]
fn four_lines() {
    assert!(in_form(b"0,0\n1,12\n2,128\n3,7\n"));
    for bad in [
        "",
        "0,0\n1,0\n2,0\n",
        "0,0\n1,0\n2,0\n3,0",
        "0,0\n1,0\n2,0\n3,0\n4,0\n",
        "1,0\n0,0\n2,0\n3,0\n",
        "0,0\n1,00\n2,0\n3,0\n",
        "0,0\n1,0,0\n2,0\n3,0\n",
        "0,0\n1, 0\n2,0\n3,0\n",
        "0,0\r\n1,0\r\n2,0\r\n3,0\r\n",
        "account,pages\n0,0\n1,0\n2,0\n3,0\n",
    ] {
        assert!(!in_form(bad.as_bytes()), "{bad}");
    }
}
