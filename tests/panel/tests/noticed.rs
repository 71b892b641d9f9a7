//! An image or a store that is wrong in one field is noticed, and so are other
//! places of objects and passwords.

use panel::checks::same_state;
use panel::{full, Places};
use refmonitor::image::{encode, store_bytes};
use refmonitor::monitor::{Frame, Monitor, Object, Registration};
use refmonitor::random::Random;

/// The third object of domain 1's estate.
const OBJECT: usize = 10;

fn object(state: &mut Monitor) -> &mut Object {
    &mut state.objects[OBJECT]
}

fn registration(state: &mut Monitor) -> &mut Registration {
    object(state).registration.as_mut().unwrap()
}

fn frame(state: &mut Monitor) -> &mut Frame {
    &mut state.domains[2].now
}

type Change = fn(&mut Monitor);

const CHANGES: [(&str, Change); 31] = [
    ("the object is gone", |s| drop(s.objects.remove(OBJECT))),
    ("a page less", |s| {
        registration(s).entries.pop();
        object(s).pages -= 1;
    }),
    ("a password more", |s| object(s).passwords[1].word += 100),
    ("a password less", |s| object(s).passwords.truncate(3)),
    ("another mode", |s| object(s).passwords[1].mode = 2),
    ("two modes swapped", |s| {
        let [a, b, ..] = &mut object(s).passwords[..] else {
            panic!("no two passwords");
        };
        std::mem::swap(&mut a.mode, &mut b.mode);
    }),
    ("two passwords swapped", |s| object(s).passwords.swap(1, 2)),
    ("the oldest password is the newest", |s| {
        object(s).passwords.rotate_left(1)
    }),
    ("no registration", |s| object(s).registration = None),
    ("its password", |s| registration(s).password += 100),
    ("its page", |s| registration(s).list.page += 1),
    ("its list's password", |s| {
        registration(s).list.password += 1
    }),
    ("an entry", |s| registration(s).entries[2] += 1),
    ("two entries swapped", |s| {
        registration(s).entries.swap(0, 3)
    }),
    ("an entry less", |s| registration(s).entries.truncate(3)),
    ("a slot's page", |s| frame(s).slots[7].page += 1),
    ("a slot's password", |s| {
        frame(s).slots[0].password += 1 << 56
    }),
    ("two slots swapped", |s| frame(s).slots.swap(3, 4)),
    ("a slot less", |s| frame(s).slots.truncate(7)),
    ("a lock more", |s| frame(s).locked += 1),
    ("the whole lock", |s| frame(s).whole = true),
    ("a saved domain less", |s| s.domains[3].saved.truncate(3)),
    ("two saved domains swapped", |s| {
        s.domains[3].saved.swap(0, 3)
    }),
    ("two domains swapped", |s| s.domains.swap(0, 3)),
    ("another account", |s| object(s).account ^= 1),
    ("two accounts swapped", |s| {
        let [.., a, b] = &mut s.objects[..] else {
            panic!("no two objects");
        };
        std::mem::swap(&mut a.account, &mut b.account);
    }),
    ("a page less of a limit", |s| s.limits[3] -= 1),
    ("no limit", |s| s.limits[0] = 0),
    ("two limits swapped", |s| s.limits.swap(0, 3)),
    ("an account less in a set", |s| s.sets[3] &= !8),
    ("two sets swapped", |s| s.sets.swap(0, 2)),
];

/// The full state, with saved domains that differ.
fn state() -> Monitor {
    let mut state = full::full();
    for (k, frame) in state.domains[3].saved.iter_mut().enumerate() {
        frame.locked = k;
    }
    state
}

/// Whether an image and a store are taken for those of the state.
fn same(image: &[u8], store: &[u8]) -> bool {
    same_state(image, store, &state()).is_ok()
}

#[test]
fn a_wrong_field() {
    let store = store_bytes(&state().store);
    assert_eq!(same_state(&encode(&state()), &store, &state()), Ok(()));
    for (name, change) in CHANGES {
        let mut wrong = state();
        change(&mut wrong);
        assert!(!same(&encode(&wrong), &store), "not noticed: {name}");
    }
}

#[test]
fn a_wrong_word_or_byte() {
    let (image, store) = (encode(&state()), store_bytes(&state().store));
    for at in [0, 7, 8, 4_096, 65_535] {
        let mut wrong = store.clone();
        wrong[at] ^= 1;
        assert!(!same(&image, &wrong), "{at}");
    }
    for at in 0..image.len() {
        let mut wrong = image.clone();
        wrong[at] ^= 1;
        assert!(!same(&wrong, &store), "{at}");
    }
    assert!(!same(&image, &store[..65_528]));
    assert!(!same(&image[1..], &store));
    assert!(!same(&image[..image.len() - 1], &store));
}

#[test]
fn other_places() {
    let (image, store) = (encode(&state()), store_bytes(&state().store));
    let mut random = Random::new(1);
    for places in Places::all() {
        let mut wrong = image.clone();
        while wrong == image {
            places.shuffle(&mut wrong, &mut random);
        }
        assert!(!same(&wrong, &store));
    }
}
