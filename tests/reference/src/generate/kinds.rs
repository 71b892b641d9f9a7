//! What the arguments of the calls stand for, and the bounds of each.

use super::{TOP, WIDE};

/// What an argument stands for.
#[derive(Clone, Copy, PartialEq, Eq)]
pub enum Kind {
    Address,
    Value,
    Page,
    Count,
    Password,
    Rights,
    Mode,
    Slot,
    Choice,
    Limit,
    Account,
    Set,
}

/// The kind of a call's argument; all beyond RG's fourth are entries.
pub fn kind(letters: &str, index: usize) -> Kind {
    use Kind::*;
    let kinds: &[Kind] = match letters {
        "BT" => &[
            Password, Password, Password, Password, Limit, Limit, Limit, Limit, Account, Set,
            Account, Set, Account, Set, Account, Set,
        ],
        "RD" | "EX" => &[Address],
        "WR" => &[Address, Value],
        "LK" => &[Address, Rights],
        "CR" => &[Page, Count, Password, Account],
        "DL" => &[Page],
        "AP" => &[Page, Password, Mode],
        "DP" => &[Page, Password],
        "RG" => &[Page, Password, Page, Password],
        "IN" => &[Slot, Page, Password],
        "RM" | "LO" => &[Slot],
        "CA" => &[Address, Choice],
        _ => &[],
    };
    kinds.get(index).copied().unwrap_or(Address)
}

/// The values at and about the bounds of a kind.
pub fn edges(kind: Kind) -> &'static [u64] {
    match kind {
        Kind::Address => &[
            0, 1, 63, 64, 2047, 2048, 4096, 6144, 8190, 8191, 8192, 8193, WIDE, TOP,
        ],
        Kind::Value => &[0, 1, 255, 256, WIDE, 1 << 63, TOP - 1, TOP],
        Kind::Page => &[
            0, 1, 31, 32, 63, 64, 95, 96, 126, 127, 128, 129, 255, 256, WIDE, TOP,
        ],
        Kind::Count => &[0, 1, 2, 31, 32, 33, 64, 256, WIDE, TOP],
        Kind::Password => &[0, 1, WIDE, 1 << 63, TOP - 1, TOP],
        Kind::Rights => &[0, 1, 15, 16, 30, 31, 32, 33, 128, 256, TOP],
        Kind::Mode => &[
            0, 1, 15, 16, 17, 31, 32, 33, 64, 65, 127, 128, 129, 143, 144, 159, 160, 192, 255, 256,
            257, 271, TOP,
        ],
        Kind::Slot => &[0, 1, 6, 7, 8, 9, 254, 255, 256, 511, WIDE, TOP],
        Kind::Choice => &[0, 1, 2, 3, 256, 257, TOP],
        Kind::Limit => &[0, 1, 2, 3, 4, 5, 64, 127, 128, 129, 255, 256, 384, TOP],
        Kind::Account => &[0, 1, 2, 3, 4, 5, 7, 8, 255, 256, WIDE, TOP],
        Kind::Set => &[0, 1, 2, 4, 7, 8, 14, 15, 16, 17, 31, 255, 256, 271, TOP],
    }
}
