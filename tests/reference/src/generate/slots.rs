//! Slots put in, taken out, listed and locked.

use super::*;

impl Generator {
    pub(super) fn insert(&mut self, d: usize) {
        let Some(list) = self.list() else { return };
        let now = &self.model.domains[d].now;
        let (locked, count) = (now.locked as u64, now.slots.len() as u64);
        let slot = match self.random.below(4) {
            0 => locked,
            1 => count,
            _ => locked + self.random.below(count - locked + 1),
        };
        self.push(d, "IN", &[slot.min(7), list.page, list.password]);
    }

    pub(super) fn remove(&mut self, d: usize) {
        let now = &self.model.domains[d].now;
        let (locked, count) = (now.locked as u64, now.slots.len() as u64);
        if count > locked && (count > 1 || self.random.percent(10)) {
            let first = if self.random.percent(15) {
                locked
            } else {
                locked.max(1)
            };
            if first < count {
                let slot = first + self.random.below(count - first);
                self.push(d, "RM", &[slot]);
            }
        }
    }

    pub(super) fn get(&mut self, d: usize) {
        self.push(d, "GT", &[]);
    }

    pub(super) fn lock(&mut self, d: usize) {
        let count = self.model.domains[d].now.slots.len() as u64;
        if self.random.percent(12) {
            self.push(d, "LO", &[WHOLE]);
        } else if count > 0 {
            let slot = self.random.below(count);
            self.push(d, "LO", &[slot]);
        }
    }

    /// Eight slots, and what they stop.
    pub(super) fn crowd(&mut self, d: usize) {
        let count = self.model.domains[d].now.slots.len();
        let locked = self.model.domains[d].now.locked;
        for have in count..MAX_SLOTS + 1 {
            if let Some(list) = self.list() {
                let slot = locked + self.random.index(have - locked + 1);
                self.push(d, "IN", &[slot.min(7) as u64, list.page, list.password]);
            }
        }
        if let Some((_, registration)) = self.door(d) {
            let entry = registration.entries[0];
            self.push(d, "CA", &[entry, 0]);
            self.push(d, "CA", &[entry, 1]);
            self.push(d, "RT", &[]);
        }
        self.push(d, "GT", &[]);
        for _ in 0..self.random.below(12) {
            let slot = 1 + self.random.below(7);
            self.push(d, "RM", &[slot]);
        }
    }

    /// Locked slots, and what they stop.
    pub(super) fn fence(&mut self, d: usize) {
        self.insert(d);
        let count = self.model.domains[d].now.slots.len() as u64;
        if count == 0 {
            return;
        }
        let slot = self.random.below(count);
        self.push(d, "LO", &[slot]);
        let below = self.random.below(slot + 1);
        if let Some(list) = self.list() {
            self.push(d, "IN", &[below, list.page, list.password]);
            self.push(d, "IN", &[(slot + 1).min(7), list.page, list.password]);
        }
        self.push(d, "RM", &[below]);
        self.push(d, "LO", &[below]);
        self.push(d, "GT", &[]);
        self.enter(d);
        self.push(d, "GT", &[]);
    }

    /// A domain without slots, and one slot put back.
    pub(super) fn strip(&mut self, d: usize) {
        let domain = &self.model.domains[d];
        let count = domain.now.slots.len();
        let (Some(&home), 0, false) = (
            domain.now.slots.first(),
            domain.now.locked,
            domain.now.whole,
        ) else {
            return;
        };
        let inside = !domain.saved.is_empty();
        for _ in 0..count {
            self.push(d, "RM", &[0]);
        }
        self.push(d, "GT", &[]);
        let line = self.stray_line();
        self.queue.push_back(line);
        if self.random.percent(if inside { 50 } else { 15 }) {
            self.push(d, "LO", &[WHOLE]);
            self.push(d, "GT", &[]);
        }
        self.push(d, "IN", &[0, home.page, home.password]);
        if inside {
            self.push(d, "RT", &[]);
        }
    }
}
