//! Instructions of both programs on an input.

use crate::loads::{growth, repeated, Kinds};
use crate::report::Grown;
use crate::{fault, Pair};
use refmonitor::callgrind::{count, Count};
use refmonitor::growth::LINES;
use std::{fs, io};

/// What both programs take for an input, and not for another. They run side by
/// side, since that changes no count.
pub fn both(pair: &Pair, input: &[u8], less: &[Count]) -> io::Result<Vec<Count>> {
    let file = pair.folder.join("counted.calls");
    fs::write(&file, input)?;
    let outs = ["counted-program", "counted-reference"].map(|name| pair.folder.join(name));
    let runs = std::thread::scope(|scope| {
        let run = |i: usize| count::<&str>(&pair.programs[i], &[], &file, &outs[i]);
        let second = scope.spawn(move || run(1));
        [run(0), second.join().expect("no panic")]
    });
    let [(first, wrote), (second, too)] = match runs {
        [Ok(first), Ok(second)] => [first, second],
        [Err(e), _] | [_, Err(e)] => return Err(e),
    };
    if wrote != too {
        return Err(fault("the outputs differ".to_string()));
    }
    let counts = [first, second].into_iter().enumerate();
    let counts = counts.map(|(i, count)| match less.get(i) {
        Some(other) => count.less(other),
        None => count,
    });
    Ok(counts.collect())
}

/// A line of each kind, counted over so many, less the stage alone.
pub fn by_kind(pair: &Pair, kinds: &Kinds, lines: u64) -> io::Result<Vec<[f64; 2]>> {
    let Kinds { stage, kinds } = kinds;
    let alone = both(pair, &repeated(stage, &[], 0), &[])?;
    let counted = |kind: &[_]| {
        let counts = both(pair, &repeated(stage, kind, lines), &alone)?;
        Ok([0, 1].map(|i| counts[i].total() as f64 / lines as f64))
    };
    kinds.iter().map(|(_, kind)| counted(kind)).collect()
}

/// The reads with more and more pairs in force.
pub fn by_pairs(pair: &Pair) -> io::Result<Vec<Grown>> {
    let mut grown = Vec::new();
    for (pairs, kinds) in growth() {
        let counts = by_kind(pair, &kinds, LINES)?;
        for ((name, _), counts) in kinds.kinds.iter().zip(counts) {
            grown.push((*name, pairs, counts));
        }
    }
    Ok(grown)
}
