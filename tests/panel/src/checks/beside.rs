//! Calls beside the second implementation.

use super::{known, refused, same_state};
use crate::answer::expected;
use crate::places::Places;
use crate::slices::{Panel, Slices};
use refmonitor::lines::calls;
use refmonitor::monitor::{Call, Monitor};
use refmonitor::random::Random;
use reshqobi::Refusal;

/// A way of calling and the second implementation, both in the same state.
pub struct Beside<'a> {
    panel: Panel<'a>,
    pub slices: Slices,
    pub second: Monitor,
}

impl<'a> Beside<'a> {
    /// The state before a boot.
    pub fn new(panel: Panel<'a>) -> Self {
        let second = Monitor::new();
        Beside::at(panel, Slices::of(&second), second)
    }

    /// Slices that hold the second implementation's state.
    pub(super) fn at(panel: Panel<'a>, slices: Slices, second: Monitor) -> Self {
        Beside {
            panel,
            slices,
            second,
        }
    }

    /// One call: the same answer, which is given, and the same values; then the
    /// same state and store, and on a refusal the same bytes as before.
    pub fn call(&mut self, domain: u64, call: &Call) -> Result<u64, String> {
        let outcome = self.second.call(domain, call);
        let (number, values) = expected(&outcome);
        let slices = &mut self.slices;
        if outcome.is_err() {
            let before = slices.clone();
            known(slices, self.panel, (domain, call), number, &values, &before)?;
            return Ok(number);
        }
        let got = slices.call(self.panel, domain, call)?;
        if (got, slices.values.bytes()) != (number, &values[..]) {
            let values = slices.values.bytes();
            return Err(format!(
                "{call:?} by {domain}: {got}, {values:?}, not {outcome:?}"
            ));
        }
        let (image, store) = (slices.image.bytes(), slices.store.bytes());
        match same_state(image, store, &self.second) {
            Ok(()) => Ok(number),
            Err(what) => Err(format!("{call:?} by {domain}: {what}")),
        }
    }

    /// The call on the image with some places in another order, if it does not
    /// read then: it is refused, and leaves it. Whether it was tried.
    fn displaced(&self, domain: u64, call: &Call, random: &mut Random) -> Result<bool, String> {
        let mut slices = self.slices.clone();
        let places = random.pick(&Places::all());
        let image = slices.image.bytes_mut();
        places.shuffle(image, random);
        if places.read(image, self.slices.image.bytes()) {
            return Ok(false);
        }
        let number = Refusal::Unreadable.number();
        refused(&mut slices, self.panel, (domain, call), number)?;
        Ok(true)
    }
}

/// The calls of an input, one after the other; how many they were.
pub fn play(panel: Panel, input: &[u8]) -> Result<usize, String> {
    let (mut beside, calls) = (Beside::new(panel), calls(input));
    for (domain, call) in &calls {
        beside.call(*domain, call)?;
    }
    Ok(calls.len())
}

/// The same, and each call but BT before on an image with some places in another
/// order. How many of these did not read.
pub fn play_displaced(panel: Panel, input: &[u8], seed: u64) -> Result<usize, String> {
    let (mut beside, mut random) = (Beside::new(panel), Random::new(seed));
    let mut count = 0;
    for (domain, call) in calls(input) {
        if !matches!(call, Call::Bt { .. }) {
            count += usize::from(beside.displaced(domain, &call, &mut random)?);
        }
        beside.call(domain, &call)?;
    }
    Ok(count)
}
