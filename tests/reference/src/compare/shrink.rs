//! Shortening a differing input.

use super::difference::{differ, line_count, Difference, Other};
use crate::lines;
use std::time::{Duration, Instant};

/// The number of the first line whose answers differ, from 0.
fn first_line(difference: &Difference) -> usize {
    let expected = difference.expected.split(|&b| b == b'\n');
    let got = difference.got.output.split(|&b| b == b'\n');
    let same = expected.zip(got).take_while(|(a, b)| a == b).count();
    same.saturating_sub(1)
}

/// A test of fewer parts; `None` when there have been enough tests.
type Test<'a, T> = &'a mut dyn FnMut(&[T]) -> Option<bool>;

/// Take out parts, ever smaller ones, while the test holds.
fn reduce<T: Clone>(parts: &mut Vec<T>, test: Test<T>) -> Option<()> {
    let mut size = parts.len().div_ceil(2);
    while size > 0 && !parts.is_empty() {
        let mut any = false;
        // From the end: the last lines hang on the first ones.
        let mut end = parts.len();
        while end > 0 {
            let start = end.saturating_sub(size);
            let mut fewer = parts[..start].to_vec();
            fewer.extend_from_slice(&parts[end..]);
            if test(&fewer)? {
                *parts = fewer;
                any = true;
            }
            end = start.min(parts.len());
        }
        if size > 1 {
            size = size.div_ceil(2);
        } else if !any {
            size = 0;
        }
    }
    Some(())
}

/// Take out two parts at once, as a call and its return, while the test holds.
fn reduce_pairs<T: Clone>(parts: &mut Vec<T>, test: Test<T>) -> Option<()> {
    let mut j = parts.len();
    while j > 1 {
        j = j.min(parts.len()).saturating_sub(1);
        for i in (0..j).rev() {
            let mut fewer = parts.clone();
            fewer.remove(j);
            fewer.remove(i);
            if test(&fewer)? {
                *parts = fewer;
                break;
            }
        }
    }
    Some(())
}

/// Let lines repeat earlier ones with the same letters, while the test holds:
/// then what only the later line needed can go.
fn repeat(pieces: &mut Vec<Vec<u8>>, test: Test<Vec<u8>>) -> Option<()> {
    let letters = |line: &[u8]| line.split(|&b| b == b',').nth(1).map(Vec::from);
    for i in (1..pieces.len()).rev() {
        for j in 0..i {
            if letters(&pieces[i]) == letters(&pieces[j]) && pieces[i] != pieces[j] {
                let mut same = pieces.clone();
                same[i] = pieces[j].clone();
                if test(&same)? {
                    *pieces = same;
                    break;
                }
            }
        }
    }
    Some(())
}

/// Let lines that cannot be read lose bytes, while the test holds.
fn shorten(pieces: &mut [Vec<u8>], test: Test<Vec<u8>>) -> Option<()> {
    for i in 0..pieces.len() {
        let line = pieces[i].strip_suffix(b"\n").unwrap_or(&pieces[i]);
        if lines::read(line).is_some() {
            continue;
        }
        let mut bytes = pieces[i].clone();
        let mut all = pieces.to_vec();
        reduce(&mut bytes, &mut |fewer| {
            all[i] = fewer.to_vec();
            test(&all)
        })?;
        pieces[i] = bytes;
    }
    Some(())
}

/// Shorten a differing input to a short run that still differs.
fn shrink(other: Other, best: &mut Difference, end: Instant) -> Option<()> {
    let (reference, name, feed) = (best.reference, best.name.clone(), best.feed);
    // Nothing after the first differing line is needed.
    let mut pieces: Vec<Vec<u8>> = best
        .input
        .split_inclusive(|&b| b == b'\n')
        .map(Vec::from)
        .collect();
    let keep = first_line(best) + 1;
    let mut test = |pieces: &[Vec<u8>]| {
        if Instant::now() > end {
            return None;
        }
        let difference = differ(reference, other, &name, &pieces.concat(), feed);
        let differs = difference.is_some();
        if let Some(difference) = difference {
            *best = difference;
        }
        Some(differs)
    };
    if keep < pieces.len() && test(&pieces[..keep])? {
        pieces.truncate(keep);
    }
    loop {
        let length = pieces.len();
        reduce(&mut pieces, &mut test)?;
        reduce_pairs(&mut pieces, &mut test)?;
        repeat(&mut pieces, &mut test)?;
        if pieces.len() == length {
            break;
        }
    }
    shorten(&mut pieces, &mut test)
}

/// The shortest run that shows one of the differences, as far as it can be
/// found in so much time.
pub fn shortest(other: Other, mut found: Vec<Difference>, time: Duration) -> Option<Difference> {
    let end = Instant::now() + time;
    found.sort_by_key(|d| line_count(&d.input));
    let mut best: Option<Difference> = None;
    for mut difference in found {
        // A stop for want of time leaves the shortest so far.
        shrink(other, &mut difference, end).unwrap_or(());
        let size = |d: &Difference| (line_count(&d.input), d.input.len());
        if best.as_ref().is_none_or(|b| size(&difference) < size(b)) {
            best = Some(difference);
        }
    }
    best
}
