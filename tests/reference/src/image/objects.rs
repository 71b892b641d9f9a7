//! Estates: objects with their passwords and registrations.

use super::bytes::{number, put, unused};
use super::OBJECT_BYTES;
use crate::monitor::*;

/// Where the fields of an object begin.
const COUNT_OF_PAGES: usize = 1;
const PASSWORDS: usize = 2;
const PASSWORD_BYTES: usize = 9;
const REGISTRATION: usize = 38;
const LIST_PAGE: usize = 46;
const LIST_PASSWORD: usize = 47;
const COUNT: usize = 55;
const ENTRIES: usize = 56;
const ACCOUNT: usize = 64;

/// The objects of a domain's estate, if its bytes keep the bounds: they stand in
/// the first places, each behind the pages of the one before it.
pub fn read_estate(domain: usize, bytes: &[u8]) -> Option<Vec<Object>> {
    let stands = |place: &&[u8]| place[COUNT_OF_PAGES] != 0;
    let count = bytes.chunks(OBJECT_BYTES).take_while(stands).count();
    let (standing, free) = bytes.split_at(OBJECT_BYTES * count);
    let mut objects: Vec<Object> = Vec::new();
    for bytes in standing.chunks(OBJECT_BYTES) {
        let object = read_object(domain, bytes)?;
        if objects.last().is_some_and(|o| object.base < o.run().end) {
            return None;
        }
        objects.push(object);
    }
    unused(free).then_some(objects)
}

/// A standing object.
fn read_object(domain: usize, bytes: &[u8]) -> Option<Object> {
    let (base, pages) = (u64::from(bytes[0]), u64::from(bytes[COUNT_OF_PAGES]));
    let own = estate(domain);
    if base < own.start || base + pages > own.end {
        return None;
    }
    let account = u64::from(bytes[ACCOUNT]);
    if account >= ACCOUNTS as u64 {
        return None;
    }
    let object = Object {
        base,
        pages,
        passwords: read_passwords(&bytes[PASSWORDS..REGISTRATION])?,
        registration: read_registration(base..base + pages, bytes)?,
        account,
    };
    let mut words = object.all_passwords();
    words.sort_unstable();
    let differ = words.windows(2).all(|two| two[0] != two[1]);
    differ.then_some(object)
}

/// The ordinary passwords, which stand in the first places.
fn read_passwords(bytes: &[u8]) -> Option<Vec<Password>> {
    let read = |bytes: &[u8]| Password {
        word: number(&bytes[..8]),
        mode: u64::from(bytes[8]),
    };
    let places = bytes.chunks(PASSWORD_BYTES).map(read);
    let passwords: Vec<Password> = places.take_while(|p| p.word != 0).collect();
    let legal = passwords.iter().all(|p| legal_mode(p.mode));
    (legal && unused(&bytes[PASSWORD_BYTES * passwords.len()..])).then_some(passwords)
}

/// The registration of an object with these pages.
fn read_registration(pages: std::ops::Range<u64>, object: &[u8]) -> Option<Option<Registration>> {
    let password = number(&object[REGISTRATION..LIST_PAGE]);
    if password == 0 {
        return unused(&object[REGISTRATION..ACCOUNT]).then_some(None);
    }
    let list = Capability {
        page: u64::from(object[LIST_PAGE]),
        password: number(&object[LIST_PASSWORD..COUNT]),
    };
    let count = usize::from(object[COUNT]);
    if list.page >= PAGES || !(1..=MAX_ENTRIES).contains(&count) {
        return None;
    }
    let (used, free) = object[ENTRIES..ACCOUNT].split_at(2 * count);
    let entries: Vec<u64> = used.chunks(2).map(number).collect();
    let inside = entries.iter().all(|e| pages.contains(&(e / PAGE_WORDS)));
    (inside && unused(free)).then_some(Some(Registration {
        password,
        list,
        entries,
    }))
}

/// Writes objects by rising base into the first places.
pub fn write_estate(objects: &[&Object], bytes: &mut [u8]) {
    assert!(objects.len() <= MAX_OBJECTS, "{objects:?} are too many");
    for (object, bytes) in objects.iter().zip(bytes.chunks_mut(OBJECT_BYTES)) {
        write_object(object, bytes);
    }
}

fn write_object(object: &Object, bytes: &mut [u8]) {
    let passwords = &object.passwords;
    assert!(passwords.len() <= MAX_PASSWORDS, "{object:?} has too many");
    put(&mut bytes[..COUNT_OF_PAGES], object.base);
    put(&mut bytes[COUNT_OF_PAGES..PASSWORDS], object.pages);
    put(&mut bytes[ACCOUNT..], object.account);
    let places = bytes[PASSWORDS..REGISTRATION].chunks_mut(PASSWORD_BYTES);
    for (password, bytes) in passwords.iter().zip(places) {
        put(&mut bytes[..8], password.word);
        put(&mut bytes[8..], password.mode);
    }
    if let Some(registration) = &object.registration {
        put(&mut bytes[REGISTRATION..LIST_PAGE], registration.password);
        put(&mut bytes[LIST_PAGE..LIST_PASSWORD], registration.list.page);
        put(&mut bytes[LIST_PASSWORD..COUNT], registration.list.password);
        put(
            &mut bytes[COUNT..ENTRIES],
            registration.entries.len() as u64,
        );
        for (entry, bytes) in registration
            .entries
            .iter()
            .zip(bytes[ENTRIES..ACCOUNT].chunks_mut(2))
        {
            put(bytes, *entry);
        }
    }
}
