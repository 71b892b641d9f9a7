//! Images with a changed byte: they read exactly where the second
//! implementation's reading says so.

use super::{known, refused};
use crate::answer::expected;
use crate::slices::{Panel, Slices};
use refmonitor::image::{decode, DOMAINS_AT, DOMAIN_BYTES, IMAGE_BYTES};
use refmonitor::monitor::{Call, Monitor, WHOLE};
use reshqobi::Refusal;

/// How many changed images read, and how many do not.
#[derive(Default)]
pub struct Flipped {
    pub read: usize,
    pub refused: usize,
}

/// Where the whole lock of a domain stands.
pub(super) fn whole_lock(domain: usize) -> usize {
    DOMAINS_AT + DOMAIN_BYTES * domain + 74
}

/// The other values that a byte is given.
fn others(byte: u8, at: usize) -> Vec<u8> {
    let any = (at * 151 + 77) as u8;
    let mut values = vec![
        0,
        1,
        byte ^ 128,
        byte.wrapping_add(1),
        byte.wrapping_sub(1),
        any,
    ];
    values.sort_unstable();
    values.dedup();
    values.retain(|&value| value != byte);
    values
}

/// GT and RD on an image that reads as this state, by every domain in turn;
/// then the whole lock, which writes the image anew: no other byte changes.
fn reads(
    panel: Panel,
    slices: &mut Slices,
    state: Monitor,
    store: &[u64],
    turn: usize,
) -> Result<(), String> {
    let store = store.to_vec();
    let mut second = Monitor { store, ..state };
    if !second.is_sound() {
        return Err("an image reads as a state that is not sound".to_string());
    }
    let read = Call::Rd {
        address: (turn * 61 % 8200) as u64,
    };
    for call in [Call::Gt, read] {
        let domain = (turn % 5) as u64;
        let (number, values) = expected(&second.call(domain, &call));
        let before = slices.clone();
        known(slices, panel, (domain, &call), number, &values, &before)?;
    }
    let domain = turn % 4;
    let lock = Call::Lo { slot: WHOLE };
    let (number, values) = expected(&second.call(domain as u64, &lock));
    let mut after = slices.clone();
    after.image.bytes_mut()[whole_lock(domain)] = 1;
    known(
        slices,
        panel,
        (domain as u64, &lock),
        number,
        &values,
        &after,
    )
}

/// GT and RD on an image that does not read.
fn refuses(panel: Panel, slices: &mut Slices, turn: usize) -> Result<(), String> {
    let (domain, number) = ((turn % 5) as u64, Refusal::Unreadable.number());
    refused(slices, panel, (domain, &Call::Gt), number)?;
    let read = Call::Rd {
        address: turn as u64,
    };
    refused(slices, panel, (domain, &read), number)
}

impl Flipped {
    /// An image that was changed: it reads, or it does not, as `decode` says.
    pub(super) fn try_image(
        &mut self,
        panel: Panel,
        mut slices: Slices,
        store: &[u64],
    ) -> Result<(), String> {
        let turn = self.read + self.refused;
        match decode(slices.image.bytes()) {
            Some(state) => {
                self.read += 1;
                reads(panel, &mut slices, state, store, turn)
            }
            None => {
                self.refused += 1;
                refuses(panel, &mut slices, turn)
            }
        }
    }
}

/// Each byte of the slices' image changed to several other values.
pub fn flipped(panel: Panel, whole: &Slices, store: &[u64]) -> Result<Flipped, String> {
    let mut found = Flipped::default();
    for at in 0..IMAGE_BYTES {
        for byte in others(whole.image.bytes()[at], at) {
            let mut slices = whole.clone();
            slices.image.bytes_mut()[at] = byte;
            found
                .try_image(panel, slices, store)
                .map_err(|what| format!("{byte} at {at}: {what}"))?;
        }
    }
    Ok(found)
}
