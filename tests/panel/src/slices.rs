//! The three slices, and calls on them.

use crate::guarded::Guarded;
use crate::raw::raw;
use refmonitor::image::{encode, store_bytes};
use refmonitor::monitor::{Call, Monitor};
use reshqobi::VALUES_BYTES;

/// What the values hold before each call: untouched and zeroed differ.
pub const UNTOUCHED: u8 = 0xee;

#[derive(Clone)]
pub struct Slices {
    pub image: Guarded,
    pub store: Guarded,
    pub values: Guarded,
}

/// A way of calling: `real`, or one with a fault.
pub type Panel<'a> = &'a dyn Fn(&mut Slices, u64, &Call) -> u64;

/// Calls the C function.
pub fn real(slices: &mut Slices, domain: u64, call: &Call) -> u64 {
    let lent = [
        slices.image.lent(),
        slices.store.lent(),
        slices.values.lent(),
    ];
    // SAFETY: each belongs to its own vector, and has its own length.
    unsafe { raw(lent, domain, call) }
}

impl Slices {
    /// An image and a store of any lengths, and values of the right length.
    pub fn new(image: &[u8], store: &[u8]) -> Self {
        Slices {
            image: Guarded::new(image),
            store: Guarded::new(store),
            values: Guarded::new(&[UNTOUCHED; VALUES_BYTES]),
        }
    }

    /// The image and the store of a monitor.
    pub fn of(monitor: &Monitor) -> Self {
        Slices::new(&encode(monitor), &store_bytes(&monitor.store))
    }

    /// One call; the values are marked as untouched before it. An error where
    /// a guard byte has changed.
    pub fn call(&mut self, panel: Panel, domain: u64, call: &Call) -> Result<u64, String> {
        self.values.bytes_mut().fill(UNTOUCHED);
        let number = panel(self, domain, call);
        for (name, slice) in [
            ("image", &self.image),
            ("store", &self.store),
            ("values", &self.values),
        ] {
            if !slice.kept() {
                return Err(format!("bytes beside the {name} changed"));
            }
        }
        Ok(number)
    }

    /// Which of image and store differ.
    pub fn changed(&self, before: &Slices) -> Option<&'static str> {
        if self.image.bytes() != before.image.bytes() {
            Some("the image changed")
        } else if self.store.bytes() != before.store.bytes() {
            Some("the store changed")
        } else {
            None
        }
    }
}
