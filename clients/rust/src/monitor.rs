//! The monitor: the image of a state, and a store.

use crate::{Refusal, IMAGE_BYTES, STORE_BYTES};
use std::fmt;

/// A state and a store. Two are equal when image and store are, byte by byte.
#[derive(Clone, PartialEq, Eq)]
pub struct Monitor {
    pub(crate) image: Box<[u8; IMAGE_BYTES]>,
    pub(crate) store: Box<[u8; STORE_BYTES]>,
}

impl Monitor {
    /// The state before a boot: no object, no slot, a store of zeros.
    pub fn new() -> Self {
        Monitor {
            image: Box::new([0; IMAGE_BYTES]),
            store: Box::new([0; STORE_BYTES]),
        }
    }

    /// A state and a store from their bytes, as [`Monitor::image`] and
    /// [`Monitor::store`] give them. Refused are a store of another length and
    /// an image that does not read, so no later call is refused for these.
    pub fn from_bytes(image: &[u8], store: &[u8]) -> Result<Self, Refusal> {
        let store: &[u8; STORE_BYTES] = store.try_into().map_err(|_| Refusal::StoreLength)?;
        let image: &[u8; IMAGE_BYTES] = image.try_into().map_err(|_| Refusal::Unreadable)?;
        let mut monitor = Monitor {
            image: Box::new(*image),
            store: Box::new(*store),
        };
        monitor.get(0)?;
        Ok(monitor)
    }

    /// The image of the state, by docs/IMAGE.md.
    pub fn image(&self) -> &[u8; IMAGE_BYTES] {
        &self.image
    }

    /// The store, each word's lowest byte first.
    pub fn store(&self) -> &[u8; STORE_BYTES] {
        &self.store
    }

    /// The word at an address, 0 to 8,191, looked at without any judging.
    pub fn word(&self, address: u64) -> Option<u64> {
        let at = usize::try_from(address).ok()?.checked_mul(8)?;
        let bytes = self.store.get(at..at.checked_add(8)?)?;
        Some(u64::from_le_bytes(bytes.try_into().expect("8 bytes")))
    }
}

impl Default for Monitor {
    fn default() -> Self {
        Monitor::new()
    }
}

impl fmt::Debug for Monitor {
    fn fmt(&self, f: &mut fmt::Formatter) -> fmt::Result {
        f.debug_struct("Monitor").finish_non_exhaustive()
    }
}
