//! Objects and passwords that come and go in front of others, between them and
//! behind them.

use super::*;

impl Generator {
    /// An object of an estate deleted, often the first or the last of eight, and
    /// one made in its place or in another.
    pub(super) fn turn_over(&mut self, d: usize) {
        if self.model.objects_in(d) < MAX_OBJECTS && self.random.percent(60) {
            self.fill(d);
            return;
        }
        let model = &self.model;
        let deleter = |o: &Object| (0..DOMAINS).find(|&e| model.granting_pair(e, o, D).is_some());
        let objects = model.by_base().into_iter();
        let own = objects.filter(|o| estate(d).contains(&o.base));
        let found: Vec<(u64, usize)> = own.filter_map(|o| Some((o.base, deleter(o)?))).collect();
        if found.is_empty() {
            return;
        }
        let (any, last) = (self.random.index(found.len()), found.len() - 1);
        let (base, by) = found[self.random.pick(&[0, last, any, any])];
        let gaps: Vec<u64> = self.gaps(d).into_iter().map(|gap| gap.0).collect();
        let page = if gaps.is_empty() || self.random.percent(60) {
            base
        } else {
            self.random.pick(&gaps)
        };
        let password = self.password();
        self.push(by, "DL", &[base]);
        self.push_create(d, page, 1, password);
        if self.random.percent(70) {
            self.give(d, page, password);
        }
    }

    /// A new owner's password, then one in any place dropped, and it or another
    /// one added.
    pub(super) fn renew(&mut self, d: usize) {
        let Some(object) = self.owned(d) else { return };
        let key = self.new_password(&object);
        self.push(d, "AP", &[object.base, key, OWNER]);
        self.give(d, object.base, key);
        let words: Vec<u64> = object.passwords.iter().map(|p| p.word).collect();
        let dropped = match self.random.below(2) {
            0 => words[0],
            _ => self.random.pick(&words),
        };
        self.push(d, "DP", &[object.base, dropped]);
        let (other, mode) = (self.new_password(&object), self.mode());
        let added = self.random.pick(&[dropped, other]);
        self.push(d, "AP", &[object.base, added, mode]);
    }
}
