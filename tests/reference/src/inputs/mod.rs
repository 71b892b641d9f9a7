//! Whole inputs: generated ones, sweeps over ranges, and damaged ones.

mod bytes;
mod rubbish;
mod sweep;

pub use bytes::{across, bytes, long_lines};
pub use rubbish::{damaged_bytes, rubbish, RUBBISH};
pub use sweep::sweep;

use crate::generate::Generator;
use std::io::{self, Write};

/// True when the generator leaves off the last line feed for this seed.
pub fn cuts_end(seed: u64) -> bool {
    seed % 4 == 3
}

/// Write a whole input.
pub fn write_input<O: Write>(seed: u64, lines: u64, output: &mut O) -> io::Result<()> {
    let mut generator = Generator::new(seed);
    for i in 1..=lines {
        output.write_all(&generator.next_line())?;
        if i < lines || !cuts_end(seed) {
            output.write_all(b"\n")?;
        }
    }
    output.flush()
}

/// A whole input in memory.
pub fn input(seed: u64, lines: u64) -> Vec<u8> {
    let mut bytes = Vec::new();
    write_input(seed, lines, &mut bytes).expect("memory does not fail");
    bytes
}
