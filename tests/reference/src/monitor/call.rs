//! The calls, and what comes of them.

use super::state::{Capability, ACCOUNTS, DOMAINS};

/// A call with its arguments as they were given.
#[derive(Clone, Debug, PartialEq, Eq)]
pub enum Call {
    Bt {
        homes: [u64; DOMAINS],
        limits: [u64; ACCOUNTS],
        /// The home account of each domain, and its set.
        accounts: [u64; DOMAINS],
        sets: [u64; DOMAINS],
    },
    Rd {
        address: u64,
    },
    Wr {
        address: u64,
        value: u64,
    },
    Ex {
        address: u64,
    },
    Lk {
        address: u64,
        rights: u64,
    },
    Cr {
        page: u64,
        count: u64,
        password: u64,
        account: u64,
    },
    Dl {
        base: u64,
    },
    Ap {
        base: u64,
        password: u64,
        mode: u64,
    },
    Dp {
        base: u64,
        password: u64,
    },
    Rg {
        base: u64,
        password: u64,
        list: Capability,
        entries: Vec<u64>,
    },
    In {
        slot: u64,
        list: Capability,
    },
    Rm {
        slot: u64,
    },
    Gt,
    Lo {
        slot: u64,
    },
    Ca {
        address: u64,
        choice: u64,
    },
    Rt,
}

/// The refusals, by the paper's numbers. `Account` and `Limit` are checked
/// right behind `Place`.
#[derive(Clone, Copy, Debug, PartialEq, Eq)]
pub enum Refusal {
    Unreadable = 1,
    Domain = 4,
    Range = 5,
    Locked = 6,
    NotGranted = 7,
    Entry = 8,
    Place = 9,
    Known = 10,
    Full = 11,
    Absent = 12,
    Account = 14,
    Limit = 15,
}

/// What a done call gives: a value, or the fields of GT.
#[derive(Clone, Debug, PartialEq, Eq)]
pub enum Done {
    Value(u64),
    Fields(Vec<u64>),
}

pub type Outcome = Result<Done, Refusal>;

/// Refuse unless `holds`.
pub(super) fn need(holds: bool, refusal: Refusal) -> Result<(), Refusal> {
    if holds {
        Ok(())
    } else {
        Err(refusal)
    }
}

pub(super) fn done() -> Outcome {
    Ok(Done::Value(0))
}
