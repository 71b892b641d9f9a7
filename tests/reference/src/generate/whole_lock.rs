//! The whole lock, and what it stops.

use super::*;

impl Generator {
    /// The whole lock inside a call; the return lifts it.
    pub(super) fn seal(&mut self, d: usize) {
        let Some((object, registration)) = self.door(d) else {
            return;
        };
        let entry = registration.entries[0];
        let choice = self.random.below(2);
        self.push(d, "CA", &[entry, choice]);
        self.push(d, "LO", &[WHOLE]);
        let mut probes = vec![
            Line::new(d as u64, "RM", &[0]),
            Line::new(d as u64, "RM", &[7]),
            Line::new(d as u64, "CA", &[entry, choice]),
            Line::new(d as u64, "LO", &[0]),
            Line::new(d as u64, "LO", &[WHOLE]),
            Line::new(d as u64, "GT", &[]),
            Line::new(d as u64, "RD", &[object.base * PAGE_WORDS]),
        ];
        if let Some(list) = self.list() {
            probes.push(Line::new(d as u64, "IN", &[1, list.page, list.password]));
        }
        let owner_calls = self.owner_calls(d);
        for _ in 0..3 + self.random.below(4) {
            let from = if self.random.percent(50) {
                &probes
            } else {
                &owner_calls
            };
            if !from.is_empty() {
                let at = self.random.index(from.len());
                self.queue.push_back(from[at].clone());
            }
        }
        self.push(d, "RT", &[]);
        self.push(d, "GT", &[]);
        self.queue.extend(owner_calls.into_iter().take(1));
    }

    /// Calls on an object that add passwords and registrations and take them
    /// away; most of the time it is one that the domain owns.
    fn owner_calls(&mut self, d: usize) -> Vec<Line> {
        let own = self.random.percent(80);
        let Some(object) = self.find(|m, o| {
            let owns = m.granting_pair(d, o, OWNER).is_some();
            owns == own && o.base % ESTATE_PAGES != 0
        }) else {
            return Vec::new();
        };
        let (domain, base) = (d as u64, object.base);
        let (password, mode) = (self.new_password(&object), self.mode());
        let mut calls = vec![
            Line::new(domain, "AP", &[base, password, mode]),
            Line::new(domain, "AP", &[base, password, 32 | mode]),
            Line::new(domain, "DL", &[base]),
        ];
        for known in object.passwords.iter().map(|p| p.word) {
            calls.push(Line::new(domain, "AP", &[base, known, mode]));
            calls.push(Line::new(domain, "DP", &[base, known]));
        }
        if let Some(registration) = &object.registration {
            calls.push(Line::new(domain, "DP", &[base, registration.password]));
        }
        if let Some(list) = self.list() {
            let (inside, outside) = (object.words().start, object.words().end % WORDS);
            for (word, entry) in [
                (list.password, inside),
                (list.password, outside),
                (0, inside),
            ] {
                let args = [base, password, list.page, word, entry];
                calls.push(Line::new(domain, "RG", &args));
            }
        }
        calls
    }
}
