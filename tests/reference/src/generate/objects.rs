//! Objects made, deleted and made again.

use super::*;

impl Generator {
    pub(super) fn create(&mut self, d: usize) {
        let gaps = self.gaps(d);
        let full = self.model.objects_in(d) == MAX_OBJECTS;
        if gaps.is_empty() || full && self.random.percent(80) {
            return;
        }
        let (first, length) = self.random.pick(&gaps);
        let count = match self.random.below(20) {
            0 => length,
            1 => 1 + self.random.below(length),
            2..=5 => length.min(2),
            6 => length.min(3),
            _ => 1,
        };
        let room = length - count;
        let page = match self.random.below(4) {
            0 => first + room,
            1 => first + self.random.below(room + 1),
            _ => first,
        };
        let password = self.password();
        self.push_create(d, page, count, password);
        if self.random.percent(85) {
            self.give(d, page, password);
        }
        if self.random.percent(25) {
            let other = self.some_domain();
            self.give(other, page, password);
        }
    }

    pub(super) fn delete(&mut self, d: usize) {
        let home = self.random.percent(8);
        let Some(object) = self.find(|m, o| {
            (home || o.base % ESTATE_PAGES != 0) && m.granting_pair(d, o, D).is_some()
        }) else {
            return;
        };
        let page = self.base(&object);
        self.push(d, "DL", &[page]);
        if self.random.percent(60) {
            let address = self.within(&object);
            self.push(d, "RD", &[address]);
        }
        if self.random.percent(60) {
            let owner = (object.base / ESTATE_PAGES) as usize;
            let password = object.passwords.first().map_or(7, |p| p.word);
            self.push_create(owner, object.base, object.pages, password);
        }
    }

    pub(super) fn recreate(&mut self, _: usize) {
        if self.graves.is_empty() {
            return;
        }
        let grave = self.random.pick(&self.graves.clone());
        let owner = (grave.base / ESTATE_PAGES) as usize;
        let pages = if self.random.percent(70) {
            grave.pages
        } else {
            1
        };
        self.push_create(owner, grave.base, pages, grave.password);
    }

    /// Eight objects in an estate, and one more.
    pub(super) fn fill(&mut self, d: usize) {
        let standing = self.model.objects_in(d);
        let free: Vec<u64> = estate(d)
            .filter(|&p| self.model.index_at(p * PAGE_WORDS).is_none())
            .collect();
        let most = (MAX_OBJECTS + 1).saturating_sub(standing).min(free.len());
        let mut step = self.random.index(3) + 1;
        if most * step > free.len() {
            step = 1;
        }
        for i in 0..most {
            let password = self.password();
            let page = free[i * step];
            self.push_create(d, page, 1, password);
            if i % 3 == 0 {
                self.give(d, page, password);
            }
        }
    }
}
