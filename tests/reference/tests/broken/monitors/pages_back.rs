//! Pages that deletions give back.

use super::accounts::with_limits;
use super::*;

pub(super) const PAGES_BACK: &[Broken] = &[
    ("a deletion gives nothing back", |m, memory, d, c| {
        deletions(m, memory, d, c, |_, _, object, books| {
            books[object.account as usize] += object.pages as i16;
        })
    }),
    ("a deletion gives back one page", |m, memory, d, c| {
        deletions(m, memory, d, c, |_, _, object, books| {
            books[object.account as usize] += object.pages as i16 - 1;
        })
    }),
    ("a deletion gives back to the caller", |m, memory, d, c| {
        deletions(m, memory, d, c, |m, d, object, books| {
            let own = m.sets[d].trailing_zeros() as usize;
            books[object.account as usize] += object.pages as i16;
            books[own] -= object.pages as i16;
        })
    }),
    ("a deletion gives back to the estate", |m, memory, d, c| {
        deletions(m, memory, d, c, |m, _, object, books| {
            let set = m.sets[(object.base / ESTATE_PAGES) as usize];
            books[object.account as usize] += object.pages as i16;
            books[set.trailing_zeros() as usize] -= object.pages as i16;
        })
    }),
    (
        "a stranger's deletion gives nothing back",
        |m, memory, d, c| {
            deletions(m, memory, d, c, |_, d, object, books| {
                if object.base / ESTATE_PAGES != d as u64 {
                    books[object.account as usize] += object.pages as i16;
                }
            })
        },
    ),
    ("only who may charge gives back", |m, memory, d, c| {
        deletions(m, memory, d, c, |m, d, object, books| {
            if !m.permits(d, object.account) {
                books[object.account as usize] += object.pages as i16;
            }
        })
    }),
    ("a home's deletion gives nothing back", |m, memory, d, c| {
        deletions(m, memory, d, c, |_, _, object, books| {
            books[object.account as usize] += i16::from(object.base % ESTATE_PAGES == 0);
        })
    }),
    ("DL only of what one may charge", |m, _, d, c| {
        let object = match *c {
            Call::Dl { base } if d < 4 => m.index_of_base(base).map(|i| m.objects[i].clone()),
            _ => None,
        };
        match object {
            Some(o) if !m.permits(d as usize, o.account) && m.clone().call(d, c).is_ok() => {
                Err(Refusal::Account)
            }
            _ => m.call(d, c),
        }
    }),
    ("a refused creation is charged", |m, memory, d, c| {
        let books = read_books(*memory);
        let outcome = with_limits(m, d, c, |m, a| limit_by(m, a, &books));
        let mut books = books;
        match *c {
            Call::Cr { account, .. } if outcome == Err(Refusal::Limit) => {
                books[account as usize] += 1;
            }
            Call::Bt { .. } if outcome.is_ok() => books = [0; ACCOUNTS],
            _ => {}
        }
        *memory = write_books(books);
        outcome
    }),
];

/// What a deletion enters wrongly in the books.
type Entry = fn(&Monitor, usize, &Object, &mut [i16; ACCOUNTS]);

fn read_books(memory: u64) -> [i16; ACCOUNTS] {
    [0, 1, 2, 3].map(|account| (memory >> (16 * account)) as i16)
}

fn write_books(books: [i16; ACCOUNTS]) -> u64 {
    let words = books.iter().enumerate();
    words
        .map(|(a, &pages)| u64::from(pages as u16) << (16 * a))
        .sum()
}

/// The limit less what the books have too much.
fn limit_by(m: &Monitor, account: usize, books: &[i16; ACCOUNTS]) -> u64 {
    let limit = m.limits[account] as i64 - i64::from(books[account]);
    limit.max(0) as u64
}

/// The books in the memory say what an account is charged beside its objects;
/// a deletion makes an entry.
fn deletions(m: &mut Monitor, memory: &mut u64, d: u64, c: &Call, entry: Entry) -> Outcome {
    let mut books = read_books(*memory);
    let before = m.clone();
    let outcome = with_limits(m, d, c, |m, a| limit_by(m, a, &books));
    match *c {
        Call::Dl { base } if outcome.is_ok() => {
            let object = &before.objects[before.index_of_base(base).unwrap()];
            entry(&before, d as usize, object, &mut books);
        }
        Call::Bt { .. } if outcome.is_ok() => books = [0; ACCOUNTS],
        _ => {}
    }
    *memory = write_books(books);
    outcome
}
