//! Calls that bring a ban on R, and calls that take one away.

use super::*;

pub const BAN_CHANGES: &[Situation] = &[
    ("WR brings a ban", |s| {
        written_ban(s, s.after) && !brought(s).is_empty()
    }),
    ("WR takes a ban away", |s| {
        written_ban(s, s.before) && !taken(s).is_empty()
    }),
    (
        "AP makes an old pair a ban",
        |s| matches!(s.call, Call::Ap { base, .. } if brought(s).contains(base)),
    ),
    (
        "DP takes a ban away",
        |s| matches!(s.call, Call::Dp { base, .. } if taken(s).contains(base)),
    ),
    (
        "AP of a list's password brings a ban",
        |s| matches!(s.call, Call::Ap { base, .. } if brought(s).iter().any(|o| o != base)),
    ),
    (
        "DP of a list's password takes a ban away",
        |s| matches!(s.call, Call::Dp { base, .. } if taken(s).iter().any(|o| o != base)),
    ),
    ("DL of a list takes a ban away", |s| {
        matches!(s.call, Call::Dl { .. }) && !taken(s).is_empty()
    }),
    ("IN brings a ban", |s| {
        matches!(s.call, Call::In { .. }) && !brought(s).is_empty()
    }),
    ("RM takes a ban away", |s| {
        matches!(s.call, Call::Rm { .. }) && !taken(s).is_empty()
    }),
    ("CA brings a ban", |s| s.merges() && !brought(s).is_empty()),
    ("RT takes a ban away", |s| {
        matches!(s.call, Call::Rt) && !taken(s).is_empty()
    }),
];

/// Is the pair that a WR writes into a true one of a negative mode, in this state?
fn written_ban(s: &Seen, state: &Monitor) -> bool {
    let Call::Wr { address, .. } = *s.call else {
        return false;
    };
    let at = address & !1;
    let named = s.done().then(|| state.index_of_base(state.word(at) / 256));
    named.flatten().is_some_and(|index| {
        let mode = state.objects[index].mode(state.word(at + 1));
        mode.is_some_and(|mode| mode & NOT != 0)
    })
}

/// Would R on the object be granted, were there no negative passwords?
fn granted_without_bans(state: &Monitor, d: usize, object: &Object) -> bool {
    let mut object = object.clone();
    object.passwords.retain(|p| p.mode & NOT == 0);
    state.granting_pair(d, &object, R).is_some()
}

/// The objects on which some domain has R granted in the one state, and banned
/// in the other.
fn banned(granted: &Monitor, banned: &Monitor) -> Vec<u64> {
    let mut bases = Vec::new();
    for d in 0..DOMAINS {
        for object in &granted.objects {
            let later = banned.index_of_base(object.base);
            let turned = later.map(|index| &banned.objects[index]).filter(|later| {
                granted.granting_pair(d, object, R).is_some()
                    && banned.granting_pair(d, later, R).is_none()
                    && granted_without_bans(banned, d, later)
            });
            bases.extend(turned.map(|object| object.base));
        }
    }
    bases
}

/// The objects on which a done call brings a ban.
fn brought(s: &Seen) -> Vec<u64> {
    if !s.done() {
        return Vec::new();
    }
    banned(s.before, s.after)
}

/// The objects from which a done call takes the last ban away.
fn taken(s: &Seen) -> Vec<u64> {
    if !s.done() {
        return Vec::new();
    }
    banned(s.after, s.before)
}
