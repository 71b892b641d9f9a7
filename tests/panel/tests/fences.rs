//! No function reads or writes beyond its slices: beside them lies memory that
//! may not be touched. A test that finds it touched ends with a signal.

use panel::checks::same_state;
use panel::fenced::{Fence, Fenced};
use panel::stage::{sixteen, stage};
use panel::{expected, raw, Slices, UNTOUCHED};
use refmonitor::inputs;
use refmonitor::lines::calls;
use refmonitor::monitor::{Call, Monitor};
use reshqobi::{IMAGE_BYTES, STORE_BYTES, VALUES_BYTES};

/// Image, store and values.
struct Three([Fenced; 3]);

impl Three {
    fn call(&mut self, domain: u64, call: &Call) -> u64 {
        let lent = self.0.each_mut().map(Fenced::lent);
        // SAFETY: each has its own memory, of its own length.
        unsafe { raw(lent, domain, call) }
    }
}

/// The slices of a monitor, cut to lengths or with zeros behind them.
fn three(slices: &Slices, lengths: [usize; 3], fence: Fence) -> Three {
    let parts = [
        slices.image.bytes(),
        slices.store.bytes(),
        slices.values.bytes(),
    ];
    let mut parts = parts.map(Vec::from);
    for (part, length) in parts.iter_mut().zip(lengths) {
        part.resize(length, 0);
    }
    Three(parts.map(|part| Fenced::new(&part, fence)))
}

#[test]
fn generated_calls() {
    for (seed, fence) in [(41, Fence::Behind), (42, Fence::Before)] {
        let mut second = Monitor::new();
        let lengths = [IMAGE_BYTES, STORE_BYTES, VALUES_BYTES];
        let mut three = three(&Slices::of(&second), lengths, fence);
        for (domain, call) in calls(&inputs::input(seed, 2_000)) {
            let (number, values) = expected(&second.call(domain, &call));
            assert_eq!(three.call(domain, &call), number, "{call:?} by {domain}");
            let [image, store, got] = three.0.each_ref().map(Fenced::bytes);
            assert_eq!(got, values);
            assert_eq!(same_state(image, store, &second), Ok(()));
        }
    }
}

#[test]
fn wrong_lengths() {
    let slices = Slices::of(&stage());
    for fence in [Fence::Behind, Fence::Before] {
        for image in [0, 1, IMAGE_BYTES - 1, IMAGE_BYTES] {
            for store in [0, 8, STORE_BYTES - 1, STORE_BYTES] {
                for values in [0, 8, VALUES_BYTES - 1, VALUES_BYTES] {
                    let lengths = [image, store, values];
                    for call in sixteen() {
                        let mut three = three(&slices, lengths, fence);
                        let answer = three.call(0, &call);
                        let right = lengths == [IMAGE_BYTES, STORE_BYTES, VALUES_BYTES];
                        assert_eq!(answer == 0, right, "{call:?}, lengths {lengths:?}");
                        let touched = three.0[2].bytes().iter().any(|&b| b != UNTOUCHED);
                        assert_eq!(touched, values == VALUES_BYTES, "lengths {lengths:?}");
                    }
                }
            }
        }
    }
}
