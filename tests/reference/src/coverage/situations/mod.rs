//! Situations that a good run comes to.

mod accounts;
mod ban_changes;
mod bans;
mod bans_aside;
mod boot_accounts;
mod boots;
mod ends;
mod faults;
mod judging;
mod lists;
mod modes;
mod objects;
mod order;
mod passwords;
mod procedures;
mod registrations;
mod slots;
mod whole_lock;

pub use ban_changes::BAN_CHANGES;
pub use bans::BANS;
pub use bans_aside::BANS_ASIDE;
pub use order::ORDER;

use super::charges::Deletion;
use super::seen::{Pair, Seen};
use crate::monitor::*;

/// A situation's name, and whether a call is in it.
pub type Situation = (&'static str, fn(&Seen) -> bool);

const GROUPS: [&[Situation]; 19] = [
    boots::BOOTS,
    boot_accounts::BOOT_ACCOUNTS,
    accounts::ACCOUNTS_CHARGED,
    accounts::PAGES_BACK,
    judging::JUDGING,
    BANS,
    BANS_ASIDE,
    BAN_CHANGES,
    lists::LISTS,
    ends::ENDS,
    objects::OBJECTS,
    passwords::PASSWORDS,
    ORDER,
    modes::MODES,
    registrations::REGISTRATIONS,
    slots::SLOTS,
    whole_lock::WHOLE_LOCK,
    procedures::PROCEDURES,
    faults::FAULTS,
];

/// All of them.
pub fn situations() -> impl Iterator<Item = Situation> {
    GROUPS.into_iter().flatten().copied()
}

/// Does any domain's present slot hold this capability?
fn some_slot(monitor: &Monitor, page: u64, password: u64) -> bool {
    let wanted = Capability { page, password };
    let mut domains = monitor.domains.iter();
    domains.any(|d| d.now.slots.contains(&wanted))
}
