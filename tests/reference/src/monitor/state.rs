//! The state: objects with their passwords, and domains with their slots.

use super::modes::{mode_denies, OWNER, P};
use std::ops::Range;

pub const DOMAINS: usize = 4;
pub const ACCOUNTS: usize = 4;
pub const WORDS: u64 = 8192;
pub const PAGE_WORDS: u64 = 64;
pub const PAGES: u64 = 128;
pub const ESTATE_PAGES: u64 = 32;
pub const PAIRS_PER_PAGE: u64 = 32;
pub const MAX_OBJECTS: usize = 8;
pub const MAX_PASSWORDS: usize = 4;
pub const MAX_ENTRIES: usize = 4;
pub const MAX_SLOTS: usize = 8;
pub const MAX_SAVED: usize = 4;
pub const MAX_LIMIT: u64 = 128;
pub const MAX_SET: u64 = 15;

/// The slot number by which LO sets the whole lock.
pub const WHOLE: u64 = 255;

/// The pages of a domain's estate.
pub fn estate(domain: usize) -> Range<u64> {
    let first = domain as u64 * ESTATE_PAGES;
    first..first + ESTATE_PAGES
}

/// A capability for a Clist, as slots and registrations hold it.
#[derive(Clone, Copy, Debug, PartialEq, Eq)]
pub struct Capability {
    pub page: u64,
    pub password: u64,
}

/// An ordinary password with its mode.
#[derive(Clone, Copy, Debug, PartialEq, Eq)]
pub struct Password {
    pub word: u64,
    pub mode: u64,
}

/// A PDX registration.
#[derive(Clone, Debug, PartialEq, Eq)]
pub struct Registration {
    pub password: u64,
    pub list: Capability,
    pub entries: Vec<u64>,
}

#[derive(Clone, Debug, PartialEq, Eq)]
pub struct Object {
    pub base: u64,
    pub pages: u64,
    /// The ordinary passwords, oldest first.
    pub passwords: Vec<Password>,
    pub registration: Option<Registration>,
    /// The account that its pages are charged to.
    pub account: u64,
}

impl Object {
    /// An object as CR and BT make it: the password is its owner's.
    pub fn new(base: u64, pages: u64, password: u64, account: u64) -> Self {
        Object {
            base,
            pages,
            passwords: vec![Password {
                word: password,
                mode: OWNER,
            }],
            registration: None,
            account,
        }
    }

    pub fn run(&self) -> Range<u64> {
        self.base..self.base + self.pages
    }

    pub fn words(&self) -> Range<u64> {
        self.base * PAGE_WORDS..(self.base + self.pages) * PAGE_WORDS
    }

    /// The pairs that the object has room for; as a Clist it may end before.
    pub fn pairs(&self) -> u64 {
        self.pages * PAIRS_PER_PAGE
    }

    /// The ordinary passwords, and the registration's if there is one.
    pub fn all_passwords(&self) -> Vec<u64> {
        let mut words: Vec<u64> = self.passwords.iter().map(|p| p.word).collect();
        words.extend(self.registration.iter().map(|r| r.password));
        words
    }

    /// The mode of an ordinary password of the object.
    pub fn ordinary_mode(&self, password: u64) -> Option<u64> {
        if password == 0 {
            return None;
        }
        self.passwords
            .iter()
            .find(|p| p.word == password)
            .map(|p| p.mode)
    }

    /// The mode of any password of the object, the registration's included.
    pub fn mode(&self, password: u64) -> Option<u64> {
        if password == 0 {
            return None;
        }
        match &self.registration {
            Some(r) if r.password == password => Some(P),
            _ => self.ordinary_mode(password),
        }
    }

    /// Whether a password of the object takes away a wanted right. The
    /// registration's is positive, and takes nothing away.
    pub fn can_deny(&self, wanted: u64) -> bool {
        self.passwords.iter().any(|p| mode_denies(p.mode, wanted))
    }
}

/// What CA saves and RT brings back.
#[derive(Clone, Debug, Default, PartialEq, Eq)]
pub struct Frame {
    pub slots: Vec<Capability>,
    pub locked: usize,
    pub whole: bool,
}

#[derive(Clone, Debug, Default, PartialEq, Eq)]
pub struct Domain {
    pub now: Frame,
    pub saved: Vec<Frame>,
}
