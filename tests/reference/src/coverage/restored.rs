//! Pairs that were behind the end of a Clist until a WR filled the zero pair.

use crate::monitor::*;
use std::collections::BTreeSet;

/// The addresses of such pairs, while their words stay as they were.
#[derive(Default)]
pub struct Restored(BTreeSet<u64>);

impl Restored {
    pub fn has(&self, pair: u64) -> bool {
        self.0.contains(&pair)
    }

    /// Note what a done call changes.
    pub fn note(&mut self, before: &Monitor, after: &Monitor, call: &Call) {
        match *call {
            Call::Bt { .. } => self.0.clear(),
            Call::Cr { page, count, .. } => {
                let made = Object::new(page, count, 0, 0).words();
                self.0.retain(|at| !made.contains(at));
            }
            Call::Wr { address, .. } => {
                self.0.remove(&(address & !1));
                if let Some(i) = before.index_at(address) {
                    let list = &before.objects[i];
                    let length = before.list_pairs(list).count();
                    // All behind the pair that was zero, up to the new end.
                    self.0.extend(after.list_pairs(list).skip(length + 1));
                }
            }
            _ => {}
        }
    }
}
