//! Accesses, and the pairs that grant them.

use super::*;

impl Generator {
    pub(super) fn access(&mut self, d: usize) {
        let (letters, right) = self.random.pick(&[
            ("RD", R),
            ("RD", R),
            ("WR", W),
            ("WR", W),
            ("EX", X),
            ("LK", R),
        ]);
        let granted = self.random.percent(85);
        let Some(object) = self.find(|m, o| !granted || m.granting_pair(d, o, right).is_some())
        else {
            return;
        };
        let mut address = self.within(&object);
        match letters {
            "WR" => {
                // Pairs in use are mostly left alone.
                for _ in 0..6 {
                    if self.model.word(address & !1) == 0 || self.random.percent(4) {
                        break;
                    }
                    address = self.within(&object);
                }
                let value = self.value(address);
                self.push(d, "WR", &[address, value]);
            }
            "LK" => {
                let rights = self.rights();
                self.push(d, "LK", &[address, rights]);
            }
            _ => self.push(d, letters, &[address]),
        }
    }

    pub(super) fn look(&mut self, d: usize) {
        let rights = self.rights();
        let granted = self.random.percent(80);
        if let Some(object) = self.find(|m, o| !granted || m.granting_pair(d, o, rights).is_some())
        {
            let address = self.within(&object);
            self.push(d, "LK", &[address, rights]);
        }
    }

    /// Write a true pair into some Clist.
    pub(super) fn share(&mut self, d: usize) {
        let Some(object) = self.find(|_, _| true) else {
            return;
        };
        let words = object.all_passwords();
        if !words.is_empty() {
            let word = self.random.pick(&words);
            self.give(d, object.base, word);
        }
    }
}
