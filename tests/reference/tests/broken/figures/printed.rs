//! Figures printed or counted in another way.

use crate::at_end::{last_state, Program};
use refmonitor::figures::{run_bytes, text};
use refmonitor::monitor::*;

fn right(input: &[u8]) -> String {
    String::from_utf8(run_bytes(input)).unwrap()
}

/// Printed in another way.
pub const PRINTED: [(&str, Program); 9] = [
    ("a header", |input| {
        format!("account,pages\n{}", right(input)).into()
    }),
    ("accounts falling", |input| {
        let text = right(input);
        text.split_inclusive('\n').rev().collect::<String>().into()
    }),
    ("accounts by pages", |input| {
        let text = right(input);
        let mut lines: Vec<&str> = text.split_inclusive('\n').collect();
        lines.sort_by_key(|line| line[2..].trim().parse::<u64>().unwrap());
        lines.concat().into()
    }),
    ("accounts without pages are left out", |input| {
        let text = right(input);
        let lines = text.split_inclusive('\n');
        let lines = lines.filter(|line| !line.ends_with(",0\n"));
        lines.collect::<String>().into()
    }),
    ("one account more", |input| (right(input) + "4,0\n").into()),
    ("accounts from 1", |input| {
        let figures = last_state(input).figures();
        let lines = figures.iter().zip(1..);
        let lines = lines.map(|(pages, a)| format!("{a},{pages}\n"));
        lines.collect::<String>().into()
    }),
    ("a full account is printed as 0", |input| {
        text(last_state(input).figures().map(|pages| pages % 128)).into()
    }),
    ("limits in place of pages", |input| {
        text(last_state(input).limits).into()
    }),
    ("pages that are left", |input| {
        let m = last_state(input);
        text([0, 1, 2, 3].map(|a| m.limits[a] - m.charged(a as u64))).into()
    }),
];

/// Counted in another way.
pub const COUNTED: [(&str, Program); 3] = [
    ("objects and not pages", |input| {
        let mut figures = [0; ACCOUNTS];
        for object in &last_state(input).objects {
            figures[object.account as usize] += 1;
        }
        text(figures).into()
    }),
    ("pages of estates and not of accounts", |input| {
        let mut figures = [0; ACCOUNTS];
        for object in &last_state(input).objects {
            figures[(object.base / ESTATE_PAGES) as usize] += object.pages;
        }
        text(figures).into()
    }),
    ("homes are left out", |input| {
        let mut m = last_state(input);
        m.objects.retain(|o| o.base % ESTATE_PAGES != 0);
        text(m.figures()).into()
    }),
];
