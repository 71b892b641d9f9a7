//! A state in which every place is used.

#[cfg(test)]
use refmonitor::image::{decode, encode};
use refmonitor::monitor::*;

/// The pages of each of an estate's eight objects.
const SIZE: u64 = ESTATE_PAGES / MAX_OBJECTS as u64;

/// The modes of an object's four passwords.
const MODES: [u64; MAX_PASSWORDS] = [OWNER, R, R | W, NOT | X];

/// The base of the object in a place of an estate.
fn base(domain: usize, place: usize) -> u64 {
    estate(domain).start + SIZE * place as u64
}

/// A password of the object with that base; the registration's is number 4.
fn password(base: u64, number: usize) -> u64 {
    1000 + 10 * base + number as u64
}

fn list(base: u64) -> Capability {
    Capability {
        page: base,
        password: password(base, 0),
    }
}

/// The account of the object with that base: 1, 2, 3 and again.
fn account(base: u64) -> u64 {
    1 + base / SIZE % 3
}

fn object(base: u64) -> Object {
    let passwords = MODES.iter().enumerate().map(|(number, &mode)| Password {
        word: password(base, number),
        mode,
    });
    let entries = (0..MAX_ENTRIES as u64).map(|k| (base + k) * PAGE_WORDS + k);
    Object {
        base,
        pages: SIZE,
        passwords: passwords.collect(),
        registration: Some(Registration {
            password: password(base, MAX_PASSWORDS),
            list: list(base),
            entries: entries.collect(),
        }),
        account: account(base),
    }
}

/// Eight slots, one for each object of the domain's own estate.
fn frame(domain: usize, locked: usize, whole: bool) -> Frame {
    Frame {
        slots: (0..MAX_SLOTS).map(|k| list(base(domain, k))).collect(),
        locked,
        whole,
    }
}

/// The most pages of each account. Account 2 is charged as many, account 3 is
/// charged more.
const LIMITS: [u64; ACCOUNTS] = [1, MAX_LIMIT, 44, 39];

/// The accounts that each domain may charge.
const SETS: [u64; DOMAINS] = [6, MAX_SET, 8, 11];

/// Eight objects in every estate, each with four passwords and a registration
/// with four entries; eight slots and four saved frames in every domain.
pub fn full() -> Monitor {
    let mut state = Monitor {
        limits: LIMITS,
        sets: SETS,
        store: store(),
        ..Monitor::new()
    };
    for d in 0..DOMAINS {
        let objects = (0..MAX_OBJECTS).map(|place| object(base(d, place)));
        state.objects.extend(objects);
        state.domains[d] = Domain {
            now: frame(d, 3, false),
            saved: vec![frame(d, MAX_SLOTS, true); MAX_SAVED],
        };
    }
    state
}

/// Each object's first pair owns it; the second pair of an estate's first
/// object owns the last one.
fn store() -> Vec<u64> {
    let mut store = vec![0; WORDS as usize];
    let mut pair = |at: u64, named: u64| {
        store[at as usize] = named * 256 + OWNER;
        store[at as usize + 1] = password(named, 0);
    };
    for d in 0..DOMAINS {
        for place in 0..MAX_OBJECTS {
            let base = base(d, place);
            pair(base * PAGE_WORDS, base);
        }
        pair(base(d, 0) * PAGE_WORDS + 2, base(d, MAX_OBJECTS - 1));
    }
    store
}

#[test]
fn the_full_state_reads() {
    let full = full();
    assert!(full.is_sound());
    let read = decode(&encode(&full)).map(|state| Monitor {
        store: store(),
        ..state
    });
    assert_eq!(full.figures(), [0, 44, 44, 40]);
    assert_eq!(read, Some(full));
}
