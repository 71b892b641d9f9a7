//! An image and a store beside the second implementation's state.

use refmonitor::image::{encode, STORE_BYTES};
use refmonitor::monitor::Monitor;

/// Whether image and store are, byte for byte, those of the second
/// implementation's state.
pub fn same_state(image: &[u8], store: &[u8], second: &Monitor) -> Result<(), String> {
    let written = encode(second);
    if image.len() != written.len() {
        return Err(format!("an image of {} bytes", image.len()));
    }
    if let Some(at) = (0..written.len()).find(|&at| image[at] != written[at]) {
        let (got, wanted) = (image[at], written[at]);
        return Err(format!("byte {at} of the image is {got}, not {wanted}"));
    }
    if store.len() != STORE_BYTES {
        return Err(format!("a store of {} bytes", store.len()));
    }
    let words = store.chunks(8).zip(&second.store);
    let mut words = words.map(|(bytes, word)| bytes == word.to_le_bytes());
    match words.position(|same| !same) {
        Some(address) => Err(format!("another word at {address}")),
        None => Ok(()),
    }
}
