//! Sweeps over the ranges of arguments, letters and numbers.

mod accounts;
mod bounds;
mod fields;
mod judging;
mod ranges;

use crate::lines::BOOT;

const TOP: u64 = u64::MAX;

/// Whole ranges, one after another.
pub fn sweep() -> Vec<u8> {
    let mut sweep = Sweep(String::new());
    sweep.stage();
    sweep.pages();
    sweep.counts();
    sweep.modes();
    sweep.bounds();
    sweep.pairs();
    sweep.ends();
    sweep.bans();
    sweep.addresses();
    sweep.slots();
    sweep.choices();
    sweep.limits();
    sweep.small_limits();
    sweep.sets();
    sweep.charges();
    sweep.letters();
    sweep.numbers();
    sweep.0.into_bytes()
}

/// The lines so far.
struct Sweep(String);

impl Sweep {
    fn add(&mut self, line: impl AsRef<str>) {
        self.0 += line.as_ref();
        self.0.push('\n');
    }

    fn boot(&mut self) {
        self.add(BOOT);
    }

    /// A boot, and an object of two pages that domain 0 owns.
    fn stage(&mut self) {
        self.boot();
        self.add("0,CR,1,2,21,0");
        self.add("0,WR,2,256");
        self.add("0,WR,3,21");
    }
}
