//! Slices of wrong lengths, for each of the sixteen functions.

use super::known;
use crate::guarded::Guarded;
use crate::slices::{Panel, Slices, UNTOUCHED};
use crate::stage::{sixteen, stage};
use reshqobi::{Refusal, IMAGE_BYTES, STORE_BYTES, VALUES_BYTES};

/// Nothing, one byte short, the right length, one byte more, and a word's
/// bytes short and more.
fn around(length: usize) -> [usize; 6] {
    [0, length - 8, length - 1, length, length + 1, length + 8]
}

/// The bytes cut, or with zeros behind them.
fn resized(bytes: &[u8], length: usize) -> Guarded {
    let mut bytes = bytes.to_vec();
    bytes.resize(length, 0);
    Guarded::new(&bytes)
}

/// Which refusal comes, if any length is wrong.
fn refusal([image, store, values]: [usize; 3]) -> Option<Refusal> {
    if store != STORE_BYTES {
        Some(Refusal::StoreLength)
    } else if values != VALUES_BYTES || image != IMAGE_BYTES {
        Some(Refusal::Unreadable)
    } else {
        None
    }
}

/// All lengths with one another, on a stage on which each call would be done,
/// and by a domain that there is not. How many calls there were.
pub fn lengths(panel: Panel) -> Result<usize, String> {
    let (calls, stage) = (sixteen(), Slices::of(&stage()));
    let mut count = 0;
    for image in around(IMAGE_BYTES) {
        for store in around(STORE_BYTES) {
            for values in around(VALUES_BYTES) {
                let lengths = [image, store, values];
                let Some(refusal) = refusal(lengths) else {
                    continue;
                };
                let mut slices = Slices {
                    image: resized(stage.image.bytes(), image),
                    store: resized(stage.store.bytes(), store),
                    values: Guarded::new(&vec![UNTOUCHED; values]),
                };
                let left = if values == VALUES_BYTES { 0 } else { UNTOUCHED };
                let (left, before) = (vec![left; values], slices.clone());
                for call in &calls {
                    for domain in [0, 4] {
                        count += 1;
                        let call = (domain, call);
                        known(&mut slices, panel, call, refusal.number(), &left, &before)
                            .map_err(|what| format!("lengths {lengths:?}: {what}"))?;
                    }
                }
            }
        }
    }
    Ok(count)
}
