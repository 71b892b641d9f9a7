//! Times of both programs on an input.

use crate::loads::{repeated, Kinds};
use crate::{fault, Pair};
use std::fs::{self, File};
use std::io;
use std::path::Path;
use std::process::Command;
use std::time::{Duration, Instant};

/// How often each program runs; the best time counts.
pub const ROUNDS: usize = 5;

/// One run, from the start of the process to its end. The output goes to a file.
fn time(program: &Path, input: &Path, output: &Path) -> io::Result<Duration> {
    let (stdin, stdout) = (File::open(input)?, File::create(output)?);
    let start = Instant::now();
    let status = Command::new(program).stdin(stdin).stdout(stdout).status()?;
    let time = start.elapsed();
    if status.success() {
        Ok(time)
    } else {
        Err(fault(format!("{}: {status}", program.display())))
    }
}

/// The times of both programs, by turns, the best first; both outputs must be
/// the same to the byte.
pub fn both(pair: &Pair, input: &[u8]) -> io::Result<[Vec<Duration>; 2]> {
    let file = pair.folder.join("timed.calls");
    fs::write(&file, input)?;
    let outputs = ["program.out", "reference.out"].map(|name| pair.folder.join(name));
    let mut times = [Vec::new(), Vec::new()];
    for _ in 0..ROUNDS {
        for (i, program) in pair.programs.iter().enumerate() {
            times[i].push(time(program, &file, &outputs[i])?);
        }
        if fs::read(&outputs[0])? != fs::read(&outputs[1])? {
            return Err(fault("the outputs differ".to_string()));
        }
    }
    times.iter_mut().for_each(|times| times.sort());
    Ok(times)
}

/// The best time of each program.
pub fn best(pair: &Pair, input: &[u8]) -> io::Result<[Duration; 2]> {
    Ok(both(pair, input)?.map(|times| times[0]))
}

/// Nanoseconds of a line of each kind, the best of so many lines, less the stage
/// alone.
pub fn by_kind(pair: &Pair, kinds: &Kinds, lines: u64) -> io::Result<Vec<[f64; 2]>> {
    let Kinds { stage, kinds } = kinds;
    let alone = best(pair, &repeated(stage, &[], 0))?;
    let timed = |kind: &[_]| {
        let best = best(pair, &repeated(stage, kind, lines))?;
        let less = |i: usize| best[i].saturating_sub(alone[i]);
        Ok([0, 1].map(|i| less(i).as_nanos() as f64 / lines as f64))
    };
    kinds.iter().map(|(_, kind)| timed(kind)).collect()
}
