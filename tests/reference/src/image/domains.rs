//! Protection domains: the frame in force and the saved ones.

use super::bytes::{number, put, unused};
use super::FRAME_BYTES;
use crate::monitor::*;

/// Where the fields of a frame begin.
const SLOT_BYTES: usize = 9;
const COUNT: usize = 72;
const LOCKED: usize = 73;
const WHOLE_LOCK: usize = 74;

/// Where the depth of a domain stands.
const DEPTH: usize = 375;

/// A protection domain, if its bytes keep the bounds.
pub fn read_domain(bytes: &[u8]) -> Option<Domain> {
    let depth = usize::from(bytes[DEPTH]);
    if depth > MAX_SAVED {
        return None;
    }
    let mut frames = bytes[..DEPTH].chunks(FRAME_BYTES);
    let now = read_frame(frames.next()?)?;
    let mut saved = Vec::new();
    for (k, bytes) in frames.enumerate() {
        if k < depth {
            saved.push(read_frame(bytes)?);
        } else if !unused(bytes) {
            return None;
        }
    }
    Some(Domain { now, saved })
}

fn read_frame(bytes: &[u8]) -> Option<Frame> {
    let (count, locked) = (usize::from(bytes[COUNT]), usize::from(bytes[LOCKED]));
    let whole = match bytes[WHOLE_LOCK] {
        0 => false,
        1 => true,
        _ => return None,
    };
    if count > MAX_SLOTS || locked > count {
        return None;
    }
    let (used, free) = bytes[..COUNT].split_at(SLOT_BYTES * count);
    let slot = |bytes: &[u8]| Capability {
        page: u64::from(bytes[0]),
        password: number(&bytes[1..]),
    };
    let slots: Vec<Capability> = used.chunks(SLOT_BYTES).map(slot).collect();
    (slots.iter().all(|s| s.page < PAGES) && unused(free)).then_some(Frame {
        slots,
        locked,
        whole,
    })
}

pub fn write_domain(domain: &Domain, bytes: &mut [u8]) {
    put(&mut bytes[DEPTH..], domain.saved.len() as u64);
    let frames = std::iter::once(&domain.now).chain(&domain.saved);
    for (frame, bytes) in frames.zip(bytes.chunks_mut(FRAME_BYTES)) {
        write_frame(frame, bytes);
    }
}

fn write_frame(frame: &Frame, bytes: &mut [u8]) {
    put(&mut bytes[COUNT..LOCKED], frame.slots.len() as u64);
    put(&mut bytes[LOCKED..WHOLE_LOCK], frame.locked as u64);
    put(&mut bytes[WHOLE_LOCK..], u64::from(frame.whole));
    for (slot, bytes) in frame.slots.iter().zip(bytes.chunks_mut(SLOT_BYTES)) {
        put(&mut bytes[..1], slot.page);
        put(&mut bytes[1..], slot.password);
    }
}
