//! Passwords added and dropped.

use super::*;

impl Generator {
    pub(super) fn add(&mut self, d: usize) {
        let Some(object) = self.owned(d) else { return };
        let (password, mode) = match &object.registration {
            Some(r) if self.random.percent(10) => (r.password, self.mode()),
            _ => (self.new_password(&object), self.mode()),
        };
        let page = self.base(&object);
        self.push(d, "AP", &[page, password, mode]);
        if self.random.percent(70) {
            let other = self.some_domain();
            self.give(other, object.base, password);
        }
    }

    pub(super) fn drop_one(&mut self, d: usize) {
        let Some(object) =
            self.find(|m, o| o.passwords.len() > 1 && m.granting_pair(d, o, OWNER).is_some())
        else {
            return;
        };
        let password = match (&object.registration, self.random.below(6)) {
            (Some(r), 0..=1) => r.password,
            (_, 2) => object.passwords[0].word,
            (_, 3) if self.random.percent(30) => self.password(),
            _ => object.passwords[object.passwords.len() - 1].word,
        };
        let page = self.base(&object);
        self.push(d, "DP", &[page, password]);
    }

    /// A password in numbers that may be no legal modes, dropped again each
    /// time.
    pub(super) fn try_modes(&mut self, d: usize) {
        let Some(object) = self.owned(d) else { return };
        let (password, legal) = (self.new_password(&object), self.mode());
        for _ in 0..4 {
            let mode = match self.random.below(8) {
                0 => legal | 32,
                1 => legal | 64,
                2 => legal + 256,
                3 => P | self.random.below(16),
                4 => NOT,
                _ => self.random.below(256),
            };
            self.push(d, "AP", &[object.base, password, mode]);
            self.push(d, "DP", &[object.base, password]);
        }
    }

    /// Four passwords and a registration on an object, and one more of each.
    pub(super) fn brim(&mut self, d: usize) {
        let Some(object) = self.owned(d) else { return };
        let mut words = Vec::new();
        for _ in object.passwords.len()..MAX_PASSWORDS + 1 {
            let password = self.new_password(&object);
            let mode = self.mode();
            self.push(d, "AP", &[object.base, password, mode]);
            words.push(password);
        }
        let Some(list) = self.list() else { return };
        for _ in 0..2 {
            let password = self.new_password(&object);
            let entries = self.entries(&object);
            self.push_register(d, object.base, password, list, &entries);
            words.push(password);
        }
        for _ in 0..3 {
            let password = self.random.pick(&words);
            match self.random.below(3) {
                0 => self.push(d, "AP", &[object.base, password, 1]),
                1 => {
                    let entry = object.words().start;
                    self.push_register(d, object.base, password, list, &[entry]);
                }
                _ => self.push(d, "DP", &[object.base, password]),
            }
        }
    }
}
