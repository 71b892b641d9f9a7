//! The state as bytes, by docs/IMAGE.md alone: reading an image with all its
//! bounds, and writing one.

mod bytes;
mod domains;
mod objects;

use crate::monitor::{estate, Monitor, Object, DOMAINS, MAX_LIMIT, MAX_SET};
use bytes::put;
use domains::{read_domain, write_domain};
use objects::{read_estate, write_estate};

/// The lengths in bytes, and where the protection domains, the limits and the
/// sets begin.
pub const IMAGE_BYTES: usize = 3592;
pub const ESTATE_BYTES: usize = 520;
pub const OBJECT_BYTES: usize = 65;
pub const DOMAINS_AT: usize = 2080;
pub const LIMITS_AT: usize = 3584;
pub const SETS_AT: usize = 3588;
pub const DOMAIN_BYTES: usize = 376;
pub const FRAME_BYTES: usize = 75;
pub const STORE_BYTES: usize = 65_536;

/// The state of an image, with objects by rising base and a store of zeros;
/// `None` where it does not read.
pub fn decode(image: &[u8]) -> Option<Monitor> {
    if image.len() != IMAGE_BYTES {
        return None;
    }
    let (table, domains) = image[..LIMITS_AT].split_at(DOMAINS_AT);
    let mut state = Monitor::new();
    for d in 0..DOMAINS {
        let estate = &table[ESTATE_BYTES * d..][..ESTATE_BYTES];
        state.objects.extend(read_estate(d, estate)?);
        state.domains[d] = read_domain(&domains[DOMAIN_BYTES * d..][..DOMAIN_BYTES])?;
    }
    state.limits = [0, 1, 2, 3].map(|a| u64::from(image[LIMITS_AT + a]));
    state.sets = [0, 1, 2, 3].map(|d| u64::from(image[SETS_AT + d]));
    let within = state.limits.iter().all(|&limit| limit <= MAX_LIMIT)
        && state.sets.iter().all(|&set| set <= MAX_SET);
    within.then_some(state)
}

/// The image of a monitor's state.
pub fn encode(state: &Monitor) -> Vec<u8> {
    let mut image = vec![0; IMAGE_BYTES];
    let (table, domains) = image[..LIMITS_AT].split_at_mut(DOMAINS_AT);
    let objects = state.by_base();
    for d in 0..DOMAINS {
        let own = |o: &&&Object| estate(d).contains(&o.base);
        let objects: Vec<&Object> = objects.iter().filter(own).copied().collect();
        write_estate(&objects, &mut table[ESTATE_BYTES * d..][..ESTATE_BYTES]);
        let domain = &mut domains[DOMAIN_BYTES * d..][..DOMAIN_BYTES];
        write_domain(&state.domains[d], domain);
    }
    for i in 0..4 {
        put(&mut image[LIMITS_AT + i..][..1], state.limits[i]);
        put(&mut image[SETS_AT + i..][..1], state.sets[i]);
    }
    image
}

/// The words of a store as bytes, each word's lowest byte first.
pub fn store_bytes(words: &[u64]) -> Vec<u8> {
    words.iter().flat_map(|word| word.to_le_bytes()).collect()
}
