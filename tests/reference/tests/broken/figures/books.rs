//! Books of creations and deletions, with wrong entries.

use refmonitor::figures::text;
use refmonitor::lines;
use refmonitor::monitor::*;

/// What a call enters in the books, by the state before it.
pub type Entry = fn(&mut [i64; ACCOUNTS], &Monitor, u64, &Call, &Outcome);

/// A program that keeps books, and prints no figure below 0.
pub fn by_books(input: &[u8], entry: Entry) -> Vec<u8> {
    let mut monitor = Monitor::new();
    let mut books = [0; ACCOUNTS];
    for (domain, call) in lines::calls(input) {
        let before = monitor.clone();
        let outcome = monitor.call(domain, &call);
        entry(&mut books, &before, domain, &call, &outcome);
    }
    text(books.map(|pages: i64| pages.max(0) as u64)).into()
}

/// The entry that is right.
pub fn entry(books: &mut [i64; ACCOUNTS], before: &Monitor, call: &Call, outcome: &Outcome) {
    if outcome.is_err() {
        return;
    }
    match *call {
        Call::Bt { accounts, .. } => {
            *books = [0; ACCOUNTS];
            accounts.iter().for_each(|&a| books[a as usize] += 1);
        }
        Call::Cr { count, account, .. } => books[account as usize] += count as i64,
        Call::Dl { base } => {
            let object = deleted(before, base);
            books[object.account as usize] -= object.pages as i64;
        }
        _ => {}
    }
}

fn deleted(before: &Monitor, base: u64) -> &Object {
    &before.objects[before.index_of_base(base).unwrap()]
}

/// Books with a wrong entry.
pub const BOOKS: [(&str, Entry); 9] = [
    ("a creation is not entered", |books, m, _, c, o| {
        if !matches!(c, Call::Cr { .. }) {
            entry(books, m, c, o);
        }
    }),
    (
        "a refused creation is entered",
        |books, m, _, c, o| match c {
            Call::Cr { account: 0..=3, .. } if *o == Err(Refusal::Full) => {
                entry(books, m, c, &Ok(Done::Value(0)));
            }
            _ => entry(books, m, c, o),
        },
    ),
    (
        "a creation past the limit is entered",
        |books, m, _, c, o| match o {
            Err(Refusal::Limit) => entry(books, m, c, &Ok(Done::Value(0))),
            _ => entry(books, m, c, o),
        },
    ),
    ("a deletion is not entered", |books, m, _, c, o| {
        if !matches!(c, Call::Dl { .. }) {
            entry(books, m, c, o);
        }
    }),
    (
        "a deletion is entered as one page",
        |books, m, _, c, o| match *c {
            Call::Dl { base } if o.is_ok() => books[deleted(m, base).account as usize] -= 1,
            _ => entry(books, m, c, o),
        },
    ),
    (
        "a deletion goes to the caller",
        |books, m, d, c, o| match *c {
            Call::Dl { base } if o.is_ok() => {
                let own = m.sets[d as usize].trailing_zeros() as usize;
                books[own] -= deleted(m, base).pages as i64;
            }
            _ => entry(books, m, c, o),
        },
    ),
    (
        "a stranger's deletion is not entered",
        |books, m, d, c, o| match *c {
            Call::Dl { base } if base / ESTATE_PAGES != d => {}
            _ => entry(books, m, c, o),
        },
    ),
    ("a boot keeps the books", |books, m, _, c, o| match *c {
        Call::Bt { accounts, .. } if o.is_ok() => {
            accounts.iter().for_each(|&a| books[a as usize] += 1);
        }
        _ => entry(books, m, c, o),
    }),
    ("a refused boot empties the books", |books, m, _, c, o| {
        if matches!(c, Call::Bt { .. }) && o.is_err() {
            *books = [0; ACCOUNTS];
        }
        entry(books, m, c, o);
    }),
];
