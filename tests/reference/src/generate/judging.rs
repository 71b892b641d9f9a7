//! Plans that put the judging of pairs to the test.

use super::*;

impl Generator {
    /// The pair that grants R, its Clist, and a domain that may write there.
    pub(super) fn granting_place(&self, d: usize, object: &Object) -> Option<(u64, Object, usize)> {
        let at = self.model.granting_pair(d, object, R)?;
        let list = self.model.objects[self.model.index_at(at)?].clone();
        let writer = self.writer(d, &list)?;
        Some((at, list, writer))
    }

    /// Calls that want various rights on the object.
    pub(super) fn try_rights(&mut self, d: usize, object: &Object) {
        let address = self.within(object);
        for _ in 0..2 + self.random.below(4) {
            match self.random.below(8) {
                0 => self.push(d, "RD", &[address]),
                1 => self.push(d, "WR", &[address, 5]),
                2 => self.push(d, "EX", &[address]),
                3 => self.try_owner(d, object),
                4 => self.push(d, "CA", &[address, 0]),
                _ => {
                    let rights = self.rights();
                    self.push(d, "LK", &[address, rights]);
                }
            }
        }
    }

    /// An owner's call that changes nothing: DP of zero, or AP or RG of a known
    /// password.
    fn try_owner(&mut self, d: usize, object: &Object) {
        let known = object.passwords.first().map_or(0, |p| p.word);
        match (self.random.below(3), self.list()) {
            (0, _) => self.push(d, "AP", &[object.base, known, R]),
            (1, Some(list)) => {
                let entry = object.words().start;
                self.push_register(d, object.base, known, list, &[entry]);
            }
            _ => self.push(d, "DP", &[object.base, 0]),
        }
    }

    /// Two pairs that hold the wanted rights only together.
    pub(super) fn split(&mut self, d: usize) {
        let owner = self.some_domain();
        let Some(object) = self.find(|m, o| {
            o.passwords.len() + 2 <= MAX_PASSWORDS
                && m.granting_pair(owner, o, OWNER).is_some()
                && m.granting_pair(d, o, R).is_none()
        }) else {
            return;
        };
        let one = self.new_password(&object);
        let mut two = self.new_password(&object);
        while two == one {
            two = self.new_password(&object);
        }
        let (a, b) = self
            .random
            .pick(&[(1, 2), (2, 4), (3, 12), (1, 14), (8, 7)]);
        self.push(owner, "AP", &[object.base, one, a]);
        self.push(owner, "AP", &[object.base, two, b]);
        self.give(d, object.base, one);
        self.give(d, object.base, two);
        let address = self.within(&object);
        self.push(d, "LK", &[address, a | b]);
        self.push(d, "LK", &[address, a]);
        self.push(d, "LK", &[address, b]);
        self.push(d, "AP", &[object.base, 3, 3]);
    }

    /// A pair far down in a Clist of several pages.
    pub(super) fn tome(&mut self, d: usize) {
        let lists = self.lists(d);
        let Some(list) = lists.iter().find(|list| list.pages > 1) else {
            self.make_tome(d);
            return;
        };
        let words = list.words();
        let at = match self.random.below(4) {
            0 => words.end - 2,
            1 => words.start + PAGE_WORDS,
            2 => words.start + PAGE_WORDS - 2,
            _ => words.start + 2 * self.random.below(list.pairs()),
        };
        self.reach(d, list, at);
    }

    /// A Clist of several pages, and a slot for it.
    fn make_tome(&mut self, d: usize) {
        let gaps: Vec<(u64, u64)> = self.gaps(d).into_iter().filter(|g| g.1 > 1).collect();
        if gaps.is_empty() {
            return;
        }
        let (first, length) = self.random.pick(&gaps);
        let count = self.random.pick(&[2, 2, 3, 5, length]).min(length);
        let password = self.password();
        self.push_create(d, first, count, password);
        self.give(d, first, password);
        let slot = self.model.domains[d].now.slots.len() as u64;
        self.push(d, "IN", &[slot.min(7), first, password]);
    }
}
