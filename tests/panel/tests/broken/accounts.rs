//! Faults with accounts, limits and sets.

use super::*;
use refmonitor::image::{decode, DOMAINS_AT, LIMITS_AT, OBJECT_BYTES, SETS_AT};
use refmonitor::monitor::Monitor;
use reshqobi::Plan;

/// The state of the image, if it reads.
fn state(slices: &Slices) -> Option<Monitor> {
    decode(slices.image.bytes())
}

/// The call with another image, which is then as before in these bytes.
fn with(slices: &mut Slices, domain: u64, call: &Call, at: usize, bytes: [u8; 4]) -> u64 {
    let place = at..at + 4;
    let before = slices.image.bytes()[place.clone()].to_vec();
    slices.image.bytes_mut()[place.clone()].copy_from_slice(&bytes);
    let answer = real(slices, domain, call);
    slices.image.bytes_mut()[place].copy_from_slice(&before);
    answer
}

/// The call, and a CR with another account.
fn charging(slices: &mut Slices, domain: u64, call: &Call, other: fn(u64) -> u64) -> u64 {
    let mut call = call.clone();
    if let Call::Cr { account, .. } = &mut call {
        *account = other(*account);
    }
    real(slices, domain, &call)
}

/// The call, and a boot with other numbers.
fn planned(slices: &mut Slices, domain: u64, call: &Call, other: fn(&mut Plan)) -> u64 {
    let Call::Bt {
        homes,
        limits,
        accounts,
        sets,
    } = *call
    else {
        return real(slices, domain, call);
    };
    let mut plan = Plan {
        homes,
        limits,
        accounts,
        sets,
    };
    other(&mut plan);
    let call = Call::Bt {
        homes: plan.homes,
        limits: plan.limits,
        accounts: plan.accounts,
        sets: plan.sets,
    };
    real(slices, domain, &call)
}

/// Images that read and should not, or the other way round.
#[rustfmt::skip]
pub const READING: [Fault; 9] = [
    ("account 4 reads", charged, |s, d, c| match s.image.bytes()[64] {
        4 => 7,
        _ => real(s, d, c),
    }),
    ("an account in a free place reads", charged, |s, d, c| match s.image.bytes()[DOMAINS_AT - 1] {
        1 => 7,
        _ => real(s, d, c),
    }),
    ("account 3 does not read", charged, |s, d, c| match s.image.bytes()[OBJECT_BYTES + 64] {
        3 => 13,
        _ => real(s, d, c),
    }),
    ("a limit of 129 reads", charged, |s, d, c| match s.image.bytes()[LIMITS_AT + 3] {
        129 => 7,
        _ => real(s, d, c),
    }),
    ("a limit of 128 does not read", charged, |s, d, c| match s.image.bytes()[LIMITS_AT + 2] {
        128 => 13,
        _ => real(s, d, c),
    }),
    ("a limit of 0 does not read", charged, |s, d, c| match s.image.bytes()[LIMITS_AT] {
        0 => 13,
        _ => real(s, d, c),
    }),
    ("a set of 16 reads", charged, |s, d, c| match s.image.bytes()[SETS_AT] {
        16 => 7,
        _ => real(s, d, c),
    }),
    ("an empty set does not read", charged, |s, d, c| match s.image.bytes()[SETS_AT + 3] {
        0 => 13,
        _ => real(s, d, c),
    }),
    ("charges above a limit do not read", charged, |s, d, c| match state(s) {
        Some(m) if (0..4).any(|a| !m.fits(a, 0)) => 13,
        _ => real(s, d, c),
    }),
];

/// What CR makes of accounts.
#[rustfmt::skip]
pub const CREATING: [Fault; 10] = [
    ("no set is asked", charged, |s, d, c| match (real(s, d, c), c) {
        (14, Call::Cr { .. }) => with(s, d, c, SETS_AT, [15; 4]),
        (answer, _) => answer,
    }),
    ("no limit is asked", charged, |s, d, c| match (real(s, d, c), c) {
        (15, Call::Cr { .. }) => with(s, d, c, LIMITS_AT, [128; 4]),
        (answer, _) => answer,
    }),
    ("a limit is not met", charged, |s, d, c| match (state(s), c) {
        (Some(m), Call::Cr { count, account: a @ 0..=3, .. }) if m.fits(*a, *count) && !m.fits(*a, *count + 1) => 15,
        _ => real(s, d, c),
    }),
    ("15 before 14", charged, |s, d, c| match (real(s, d, c), state(s), c) {
        (14, Some(m), Call::Cr { count, account, .. }) if !m.fits(*account, *count) => 15,
        (answer, ..) => answer,
    }),
    ("11 before 15", written_cases, |s, d, c| match (real(s, d, c), state(s)) {
        (15, Some(m)) if m.objects_in(d as usize) == 8 => 11,
        (answer, _) => answer,
    }),
    ("14 writes the image", charged, |s, d, c| and(s, d, c, |a, _, s| {
        if a == 14 {
            s.image.bytes_mut()[SETS_AT + 3] ^= 1
        }
    })),
    ("15 zeroes the object's words", charged, |s, d, c| and(s, d, c, |a, c, s| {
        if let (15, Call::Cr { page, .. }) = (a, c) {
            s.store.bytes_mut()[512 * *page as usize..][..512].fill(0)
        }
    })),
    ("an object is on account 0", charged, |s, d, c| charging(s, d, c, |_| 0)),
    ("account 4 is taken as 0", charged, |s, d, c| charging(s, d, c, |a| if a == 4 { 0 } else { a })),
    ("an account is cut to a byte", charged, |s, d, c| charging(s, d, c, |a| a % 256)),
];

/// What BT makes of its numbers.
#[rustfmt::skip]
pub const BOOTING: [Fault; 9] = [
    ("limits in another order", booted, |s, d, c| planned(s, d, c, |p| p.limits.swap(1, 2))),
    ("home accounts in another order", booted, |s, d, c| planned(s, d, c, |p| p.accounts.swap(0, 3))),
    ("sets in another order", booted, |s, d, c| planned(s, d, c, |p| p.sets.rotate_left(1))),
    ("a limit of 129 is taken as 128", booted, |s, d, c| planned(s, d, c, |p| {
        p.limits = p.limits.map(|l| if l == 129 { 128 } else { l })
    })),
    ("limits are cut to a byte", booted, |s, d, c| planned(s, d, c, |p| {
        p.limits = p.limits.map(|l| l % 256)
    })),
    ("sets are cut to four bits", booted, |s, d, c| planned(s, d, c, |p| {
        p.sets = p.sets.map(|set| set % 16)
    })),
    ("a home account is put into its set", booted, |s, d, c| planned(s, d, c, |p| {
        for (set, home) in p.sets.iter_mut().zip(p.accounts) {
            *set |= 1 << (home % 4);
        }
    })),
    ("a limit below the home pages is raised", booted, |s, d, c| planned(s, d, c, |p| {
        for home in p.accounts.map(|home| home as usize % 4) {
            p.limits[home] = p.limits[home].max(4);
        }
    })),
    ("the limits stay", booted, |s, d, c| {
        let limits = s.image.bytes()[LIMITS_AT..SETS_AT].to_vec();
        let answer = real(s, d, c);
        s.image.bytes_mut()[LIMITS_AT..SETS_AT].copy_from_slice(&limits);
        answer
    }),
];
