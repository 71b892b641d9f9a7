//! Registrations.

use super::*;

impl Generator {
    pub(super) fn entries(&mut self, object: &Object) -> Vec<u64> {
        let count = 1 + self.random.index(MAX_ENTRIES);
        let mut entries: Vec<u64> = (0..count).map(|_| self.within(object)).collect();
        if self.random.percent(15) {
            entries[0] = entries[count - 1];
        }
        entries
    }

    /// Queue an RG.
    pub(super) fn push_register(
        &mut self,
        d: usize,
        base: u64,
        password: u64,
        list: Capability,
        entries: &[u64],
    ) {
        let mut args = vec![base, password, list.page, list.password];
        args.extend(entries);
        self.push(d, "RG", &args);
    }

    pub(super) fn register(&mut self, d: usize) {
        let fresh = self.random.percent(85);
        let Some(object) = self.find(|m, o| {
            !(fresh && o.registration.is_some()) && m.granting_pair(d, o, OWNER).is_some()
        }) else {
            return;
        };
        let Some(list) = self.list() else { return };
        let password = self.new_password(&object);
        let page = self.base(&object);
        let entries = self.entries(&object);
        self.push_register(d, page, password, list, &entries);
        for _ in 0..2 {
            let other = self.some_domain();
            self.give(other, object.base, password);
        }
    }

    /// An owner's RG that breaks one rule or several.
    pub(super) fn stumble(&mut self, d: usize) {
        let Some(object) = self.owned(d) else { return };
        let Some(mut list) = self.list() else { return };
        if self.random.percent(20) {
            list.password = self.likely(Kind::Password);
        }
        let known = self.random.percent(40);
        let password = match (&object.registration, object.passwords.first()) {
            (Some(r), _) if known && self.random.percent(50) => r.password,
            (_, Some(p)) if known => p.word,
            _ => self.new_password(&object),
        };
        let mut entries = self.entries(&object);
        if self.random.percent(70) {
            let at = self.random.index(entries.len());
            let words = object.words();
            entries[at] = match self.random.below(16) {
                0..=3 => words.end % WORDS,
                4..=7 => words.start.saturating_sub(1),
                8..=11 => words.end,
                12 => TOP,
                13 => WORDS,
                _ => self.likely(Kind::Address),
            };
        }
        self.push_register(d, object.base, password, list, &entries);
    }
}
