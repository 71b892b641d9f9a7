//! Broken programs that print the objects.

use crate::at_end::{last_state, Program};
use crate::{found_by, SHORT};
use refmonitor::compare::{search, Ran, OBJECTS};
use refmonitor::lines;
use refmonitor::monitor::*;
use refmonitor::objects::{in_form, line, run_bytes, HEADER};

/// The header, and a line for each of these.
fn table<T>(objects: impl IntoIterator<Item = T>, line: impl Fn(T) -> String) -> Vec<u8> {
    let lines = objects.into_iter().map(line).collect::<String>();
    (HEADER.to_string() + &lines).into()
}

/// Every object, printed in another way.
fn each(input: &[u8], line: fn(&Object) -> String) -> Vec<u8> {
    table(last_state(input).by_base(), line)
}

/// Some objects alone.
fn some(input: &[u8], test: fn(&&Object) -> bool) -> Vec<u8> {
    let state = last_state(input);
    table(state.by_base().into_iter().filter(test), line)
}

/// The fields of an object's line, the third and the last two given.
fn fields(o: &Object, account: u64, passwords: usize, pdx: u64) -> String {
    let (base, pages) = (o.base, o.pages);
    format!("{base},{pages},{account},{passwords},{pdx}\n")
}

fn pdx(object: &Object) -> u64 {
    u64::from(object.registration.is_some())
}

/// Printed in another way.
const PRINTED: [(&str, Program); 16] = [
    ("no header", |input| {
        run_bytes(input)[HEADER.len()..].to_vec()
    }),
    ("the call program's header", |input| {
        [lines::HEADER.as_bytes(), &run_bytes(input)[HEADER.len()..]].concat()
    }),
    ("no header without objects", |input| {
        let output = run_bytes(input);
        match output == HEADER.as_bytes() {
            true => Vec::new(),
            false => output,
        }
    }),
    ("bases falling", |input| {
        table(last_state(input).by_base().into_iter().rev(), line)
    }),
    ("bases as text", |input| {
        let mut objects = last_state(input).objects;
        objects.sort_by_key(|o| o.base.to_string());
        table(&objects, line)
    }),
    ("as they were made", |input| {
        table(&last_state(input).objects, line)
    }),
    ("the registration among the passwords", |input| {
        each(input, |o| {
            fields(o, o.account, o.all_passwords().len(), pdx(o))
        })
    }),
    ("positive passwords alone", |input| {
        each(input, |o| {
            let positive = o.passwords.iter().filter(|p| p.mode < NOT);
            fields(o, o.account, positive.count(), pdx(o))
        })
    }),
    ("the entries and not 1", |input| {
        each(input, |o| {
            let entries = o.registration.as_ref().map_or(0, |r| r.entries.len());
            fields(o, o.account, o.passwords.len(), entries as u64)
        })
    }),
    ("1 without a registration", |input| {
        each(input, |o| {
            fields(o, o.account, o.passwords.len(), 1 - pdx(o))
        })
    }),
    ("the domain and not the account", |input| {
        each(input, |o| {
            fields(o, o.base / ESTATE_PAGES, o.passwords.len(), pdx(o))
        })
    }),
    ("the last page and not their number", |input| {
        each(input, |o| {
            let (base, last, account) = (o.base, o.run().end - 1, o.account);
            format!("{base},{last},{account},{},{}\n", o.passwords.len(), pdx(o))
        })
    }),
    ("no account", |input| {
        each(input, |o| {
            let (base, pages) = (o.base, o.pages);
            format!("{base},{pages},{},{}\n", o.passwords.len(), pdx(o))
        })
    }),
    ("homes are left out", |input| {
        some(input, |o| o.base % ESTATE_PAGES != 0)
    }),
    ("objects without passwords are left out", |input| {
        some(input, |o| !o.passwords.is_empty())
    }),
    ("an estate's eighth object is left out", |input| {
        let state = last_state(input);
        let objects = state.by_base();
        let estates = objects.chunk_by(|a, b| a.base / ESTATE_PAGES == b.base / ESTATE_PAGES);
        table(estates.flat_map(|own| own.iter().take(7).copied()), line)
    }),
];

/// The places of an estate, and what a call does to them.
type Places = Vec<Option<u64>>;
type Change = fn(&mut Places, u64);

/// Objects printed by estate, and there by the places that they were given.
fn by_place(input: &[u8], create: Change, delete: Change) -> Vec<u8> {
    let mut monitor = Monitor::new();
    let mut estates: [Places; DOMAINS] = Default::default();
    for (domain, call) in lines::calls(input) {
        if monitor.call(domain, &call).is_err() {
            continue;
        }
        match call {
            Call::Bt { .. } => estates = [0, 32, 64, 96].map(|base| vec![Some(base)]),
            Call::Cr { page, .. } => create(&mut estates[domain as usize], page),
            Call::Dl { base } => delete(&mut estates[(base / ESTATE_PAGES) as usize], base),
            _ => {}
        }
    }
    let bases = estates.iter().flatten().flatten();
    let object = |&base: &u64| &monitor.objects[monitor.index_of_base(base).unwrap()];
    table(bases.map(object), line)
}

/// By rising base.
const RISING: Change = |places, base| {
    places.push(Some(base));
    places.sort();
};

/// The gap closes.
const CLOSED: Change = |places, base| places.retain(|&place| place != Some(base));

/// What CR and DL do to the places of an estate.
const PLACED: [(&str, Change, Change); 4] = [
    (
        "CR behind all objects",
        |places, base| places.push(Some(base)),
        CLOSED,
    ),
    (
        "CR in front of all objects",
        |places, base| places.insert(0, Some(base)),
        CLOSED,
    ),
    (
        "DL leaves a gap, which CR fills",
        |places, base| {
            places.push(None);
            *places.iter_mut().find(|place| place.is_none()).unwrap() = Some(base);
        },
        |places, base| {
            let mut places = places.iter_mut();
            *places.find(|place| **place == Some(base)).unwrap() = None;
        },
    ),
    (
        "DL puts the last object into the gap",
        RISING,
        |places, base| {
            let place = places.iter().position(|&place| place == Some(base));
            places.swap_remove(place.unwrap());
        },
    ),
];

#[test]
fn objects_in_rising_places_agree() {
    let mut same = |input: &[u8], _| Ran::well(by_place(input, RISING, CLOSED));
    assert!(search(OBJECTS, &mut same, SHORT, &mut |_| {}).is_ok());
}

#[test]
fn broken_tables_are_found() {
    for (name, program) in PRINTED {
        found_by(OBJECTS, name, &mut |input, _| Ran::well(program(input)), 20);
    }
    for (name, create, delete) in PLACED {
        let mut other = |input: &[u8], _| Ran::well(by_place(input, create, delete));
        found_by(OBJECTS, name, &mut other, 20);
    }
}

#[test]
fn five_numbers_a_line() {
    for good in ["", "0,1,0,1,0\n", "9,1,3,4,1\n32,32,0,0,0\n127,1,0,1,0\n"] {
        assert!(in_form(format!("{HEADER}{good}").as_bytes()), "{good}");
    }
    for bad in [
        "0,1,0,1,0",
        "\n",
        "0,1,0,1\n",
        "0,1,0,1,0,0\n",
        "0,1,0,1,2\n",
        "0,1,0,01,0\n",
        "0,1,0, 1,0\n",
        "9,1,0,1,0\n5,1,0,1,0\n",
        "9,1,0,1,0\n9,1,0,1,0\n",
    ] {
        assert!(!in_form(format!("{HEADER}{bad}").as_bytes()), "{bad}");
    }
    assert!(!in_form(b"") && !in_form(b"0,1,0,1,0\n"));
}
