//! Legal modes.

use super::*;

pub(super) const MODES: &[Broken] = &[
    ("a legal mode is refused", |m, _, d, c| match c {
        Call::Ap { mode: 157, .. } if d < 4 => Err(Refusal::Range),
        _ => m.call(d, c),
    }),
    ("bit 64 is allowed", |m, _, d, c| {
        allowed(m, d, c, |mode| legal_mode(mode & !64))
    }),
    ("bit 32 is allowed", |m, _, d, c| {
        allowed(m, d, c, |mode| legal_mode(mode & !32))
    }),
    ("P without NOT is allowed", |m, _, d, c| {
        allowed(m, d, c, |mode| mode < NOT && legal_mode(mode | NOT))
    }),
    ("NOT without a right is allowed", |m, _, d, c| {
        allowed(m, d, c, |mode| mode == NOT)
    }),
    ("a mode above 255 goes by its last byte", |m, _, d, c| {
        allowed(m, d, c, |mode| legal_mode(mode % 256))
    }),
];

/// AP takes an illegal mode too, where the test passes.
fn allowed(m: &mut Monitor, d: u64, c: &Call, test: fn(u64) -> bool) -> Outcome {
    let Call::Ap {
        base,
        password,
        mode,
    } = *c
    else {
        return m.call(d, c);
    };
    if legal_mode(mode) || !test(mode) {
        return m.call(d, c);
    }
    let add = Call::Ap {
        base,
        password,
        mode: R,
    };
    let outcome = m.call(d, &add)?;
    let index = m.index_of_base(base).unwrap();
    m.objects[index].passwords.last_mut().unwrap().mode = mode;
    Ok(outcome)
}
