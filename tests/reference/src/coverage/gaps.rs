//! What earlier calls took away: objects from full estates, and passwords.

use crate::monitor::*;
use std::cmp::Ordering;

/// Where something stands among others.
#[derive(Clone, Copy, Debug, PartialEq, Eq)]
pub enum Stand {
    First,
    Middle,
    Last,
}

impl Stand {
    /// The stand of a place among so many others; `None` where there are none.
    pub fn among(place: usize, others: usize) -> Option<Stand> {
        match (place, place.cmp(&others)) {
            _ if others == 0 => None,
            (0, _) => Some(Stand::First),
            (_, Ordering::Less) => Some(Stand::Middle),
            _ => Some(Stand::Last),
        }
    }
}

/// An ordinary password that was dropped while others stood, and whether another
/// one was added to the object since.
#[derive(Clone, Copy)]
pub struct Dropped {
    base: u64,
    pub word: u64,
    pub mode: u64,
    pub stand: Stand,
    pub filled: bool,
}

/// Since the last boot.
#[derive(Default)]
pub struct Gaps {
    full: [bool; DOMAINS],
    dropped: Vec<Dropped>,
}

impl Gaps {
    /// Whether the estate was full before its last deletion, and had no creation
    /// since.
    pub fn was_full(&self, domain: usize) -> bool {
        self.full[domain]
    }

    /// What was dropped from the object since it was made.
    pub fn dropped(&self, base: u64) -> impl Iterator<Item = &Dropped> {
        self.dropped.iter().filter(move |d| d.base == base)
    }

    /// Note what a done call changes.
    pub fn note(&mut self, before: &Monitor, domain: u64, call: &Call) {
        match *call {
            Call::Bt { .. } => *self = Gaps::default(),
            Call::Cr { .. } => self.full[domain as usize] = false,
            Call::Dl { base } => {
                let estate = (base / ESTATE_PAGES) as usize;
                self.full[estate] = before.objects_in(estate) == MAX_OBJECTS;
                self.dropped.retain(|d| d.base != base);
            }
            Call::Ap { base, .. } => {
                let dropped = self.dropped.iter_mut().filter(|d| d.base == base);
                dropped.for_each(|d| d.filled = true);
            }
            Call::Dp { base, password } => {
                self.dropped.extend(dropped_by(before, base, password));
            }
            _ => {}
        }
    }
}

/// What a DP takes away, if it is an ordinary password beside others.
fn dropped_by(before: &Monitor, base: u64, password: u64) -> Option<Dropped> {
    let object = &before.objects[before.index_of_base(base)?];
    Some(Dropped {
        base,
        word: password,
        mode: object.ordinary_mode(password)?,
        stand: stand_of(before, base, password)?,
        filled: false,
    })
}

/// The stand of an ordinary password among the others of its object, by age.
pub fn stand_of(monitor: &Monitor, base: u64, password: u64) -> Option<Stand> {
    let passwords = &monitor.objects[monitor.index_of_base(base)?].passwords;
    let place = passwords.iter().position(|p| p.word == password)?;
    Stand::among(place, passwords.len() - 1)
}
