//! Images in which one part was copied over another of the same kind: an object,
//! a password, a registration, an account, a frame, a slot, a domain, a limit or
//! a set.

use super::flipped::Flipped;
use crate::slices::{Panel, Slices};
use refmonitor::image::{DOMAINS_AT, DOMAIN_BYTES, FRAME_BYTES, OBJECT_BYTES};
use refmonitor::image::{IMAGE_BYTES, LIMITS_AT};
use refmonitor::random::Random;

/// Where the parts of one kind begin, and their length.
struct Parts {
    starts: Vec<usize>,
    length: usize,
}

fn parts(starts: impl Iterator<Item = usize>, length: usize) -> Parts {
    Parts {
        starts: starts.collect(),
        length,
    }
}

/// The parts of an image by kind.
fn kinds() -> Vec<Parts> {
    let objects = || (0..DOMAINS_AT).step_by(OBJECT_BYTES);
    let domains = || (0..4).map(|d| DOMAINS_AT + DOMAIN_BYTES * d);
    let frames = || domains().flat_map(|at| (0..5).map(move |k| at + FRAME_BYTES * k));
    let passwords = objects().flat_map(|at| (0..4).map(move |k| at + 2 + 9 * k));
    vec![
        parts(objects(), OBJECT_BYTES),
        parts(objects(), 2),
        parts(passwords, 9),
        parts(objects().map(|at| at + 38), 26),
        parts(objects().map(|at| at + 55), 9),
        parts(objects().map(|at| at + 64), 1),
        parts(domains(), DOMAIN_BYTES),
        parts(domains().map(|at| at + 375), 1),
        parts(frames(), FRAME_BYTES),
        parts(frames().flat_map(|at| (0..8).map(move |k| at + 9 * k)), 9),
        parts(frames().map(|at| at + 72), 3),
        parts(LIMITS_AT..IMAGE_BYTES, 1),
    ]
}

/// So many images, each with a part copied over another, and now and then a
/// second one.
pub fn copied(
    panel: Panel,
    whole: &Slices,
    store: &[u64],
    seed: u64,
    count: usize,
) -> Result<Flipped, String> {
    let (kinds, mut random, mut found) = (kinds(), Random::new(seed), Flipped::default());
    for i in 0..count {
        let mut slices = whole.clone();
        let mut done = Vec::new();
        for _ in 0..1 + usize::from(random.percent(30)) {
            let Parts { starts, length } = &kinds[(i + done.len()) % kinds.len()];
            let (from, to) = (random.pick(starts), random.pick(starts));
            let image = slices.image.bytes_mut();
            image.copy_within(from..from + length, to);
            done.push((from, to, *length));
        }
        found
            .try_image(panel, slices, store)
            .map_err(|what| format!("{done:?} copied: {what}"))?;
    }
    Ok(found)
}
