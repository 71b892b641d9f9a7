//! Calls of procedures, and returns.

use super::*;

impl Generator {
    pub(super) fn enter(&mut self, d: usize) {
        if let Some((_, registration)) = self.door(d) {
            let entry = self.random.pick(&registration.entries);
            let choice = u64::from(self.random.percent(35));
            self.push(d, "CA", &[entry, choice]);
        } else if let Some(object) = self.find(|_, o| o.registration.is_some()) {
            let registration = object.registration.expect("found by it");
            if self.give(d, object.base, registration.password) {
                let choice = self.random.below(2);
                self.push(d, "CA", &[registration.entries[0], choice]);
            }
        } else {
            let other = self.some_domain();
            self.register(other);
        }
    }

    pub(super) fn leave(&mut self, d: usize) {
        if !self.model.domains[d].saved.is_empty() {
            self.push(d, "RT", &[]);
        }
    }

    /// Calls within calls, and back out.
    pub(super) fn dive(&mut self, d: usize) {
        let Some((object, registration)) = self.door(d) else {
            return;
        };
        let list = self.model.clist(registration.list).cloned();
        if let Some(list) = list {
            self.give_in(d, &list, object.base, registration.password);
        }
        let depth = 2 + self.random.below(4);
        for _ in 0..depth {
            let entry = self.random.pick(&registration.entries);
            let choice = u64::from(self.random.percent(40));
            self.push(d, "CA", &[entry, choice]);
            self.work(d, &object);
        }
        let back = self.random.below(depth + 2);
        for _ in 0..back {
            self.push(d, "RT", &[]);
            if self.random.percent(30) {
                self.push(d, "GT", &[]);
            }
        }
    }

    /// What a domain does inside a call, if anything.
    fn work(&mut self, d: usize, object: &Object) {
        match self.random.below(6) {
            0 => {
                let slot = self.random.below(2);
                self.push(d, "LO", &[slot]);
            }
            1 => self.push(d, "GT", &[]),
            2 => self.insert(d),
            3 => self.create(d),
            4 => {
                let address = self.within(object);
                let rights = self.rights();
                self.push(d, "LK", &[address, rights]);
            }
            _ => {}
        }
    }
}
