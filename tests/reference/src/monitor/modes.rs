//! Rights and modes.

pub const R: u64 = 1;
pub const W: u64 = 2;
pub const X: u64 = 4;
pub const D: u64 = 8;
pub const P: u64 = 16;
pub const ALL_RIGHTS: u64 = R | W | X | D | P;
pub const OWNER: u64 = R | W | X | D;
pub const NOT: u64 = 128;

/// Below 256, bits 32 and 64 clear, at least one right, P only beside N.
pub fn legal_mode(mode: u64) -> bool {
    mode < 256
        && mode & (32 | 64) == 0
        && mode & ALL_RIGHTS != 0
        && (mode & P == 0 || mode & NOT != 0)
}

/// A positive mode that holds all the wanted rights.
pub fn mode_grants(mode: u64, wanted: u64) -> bool {
    mode & NOT == 0 && mode & wanted == wanted
}

/// A negative mode that holds any of the wanted rights.
pub fn mode_denies(mode: u64, wanted: u64) -> bool {
    mode & NOT != 0 && mode & wanted != 0
}
