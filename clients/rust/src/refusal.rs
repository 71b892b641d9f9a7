//! The refusals, by the names and numbers of include/reshqobi.h.

use std::error::Error;
use std::fmt;

/// Why a call is refused.
#[derive(Clone, Copy, Debug, PartialEq, Eq, Hash)]
pub enum Refusal {
    StoreLength = 2,
    NoDomain = 4,
    OutOfRange = 5,
    Locked = 6,
    NotGranted = 7,
    NotEntry = 8,
    NoRun = 9,
    HasPassword = 10,
    Full = 11,
    Missing = 12,
    Unreadable = 13,
    NotPermitted = 14,
    LimitPassed = 15,
}

impl Refusal {
    /// All of them, by rising number.
    pub const ALL: [Refusal; 13] = [
        Refusal::StoreLength,
        Refusal::NoDomain,
        Refusal::OutOfRange,
        Refusal::Locked,
        Refusal::NotGranted,
        Refusal::NotEntry,
        Refusal::NoRun,
        Refusal::HasPassword,
        Refusal::Full,
        Refusal::Missing,
        Refusal::Unreadable,
        Refusal::NotPermitted,
        Refusal::LimitPassed,
    ];

    /// The answer number.
    pub fn number(self) -> u64 {
        self as u64
    }

    /// The refusal with that answer number.
    pub fn of(number: u64) -> Option<Refusal> {
        Refusal::ALL.into_iter().find(|r| r.number() == number)
    }
}

/// In the words of docs/CALLS.md, and for 13 of docs/IMAGE.md.
impl fmt::Display for Refusal {
    fn fmt(&self, f: &mut fmt::Formatter) -> fmt::Result {
        f.write_str(match self {
            Refusal::StoreLength => "the store has not 8,192 words",
            Refusal::NoDomain => "the domain is above 3",
            Refusal::OutOfRange => "an argument is out of its range",
            Refusal::Locked => {
                "the slot is locked (IN, RM), or the whole lock is set (IN, RM, CA, AP, RG)"
            }
            Refusal::NotGranted => {
                "the rights are not granted, or the presented capability opens nothing; \
                 a missing object is no different"
            }
            Refusal::NotEntry => {
                "CA: the address is no entry; RG: an entry lies outside the object"
            }
            Refusal::NoRun => "CR: the run leaves the caller's estate or meets an object",
            Refusal::HasPassword => "AP, RG: the object has that password already",
            Refusal::Full => {
                "full: 8 objects, 4 passwords, a registration, 8 slots or 4 saved domains"
            }
            Refusal::Missing => "nothing there: no such slot or password, or nothing saved",
            Refusal::Unreadable => "the values have not 88 bytes or the image does not read",
            Refusal::NotPermitted => "CR: the account is not in the caller's set",
            Refusal::LimitPassed => "CR: the account's pages would pass its limit",
        })
    }
}

impl Error for Refusal {}
