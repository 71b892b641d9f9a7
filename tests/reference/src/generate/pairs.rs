//! Writing pairs into Clists.

use super::*;

impl Generator {
    /// The first zero pair of a Clist's object that no queued line will fill.
    pub(super) fn free_pair(&self, list: &Object) -> Option<u64> {
        let words = list.words();
        (words.start..words.end).step_by(2).find(|&at| {
            self.model.word(at) == 0
                && self.model.word(at + 1) == 0
                && !self
                    .queue
                    .iter()
                    .any(|l| l.letters == "WR" && l.args[0] == at)
        })
    }

    /// A place for a new pair: mostly the end, else in the Clist or behind it.
    pub(super) fn place(&mut self, list: &Object) -> u64 {
        let words = list.words();
        if self.random.percent(75) {
            if let Some(at) = self.free_pair(list) {
                return at;
            }
        }
        match self.random.below(4) {
            0 => words.end - 2,
            1 => words.start + 2 * self.random.below(list.pairs()),
            _ => words.start + 2 + 2 * self.random.below(10),
        }
    }

    /// Queue the two writes of a pair.
    pub(super) fn write_pair(&mut self, writer: usize, at: u64, page: u64, password: u64) {
        let word = (page << 8).wrapping_add(self.hint());
        self.push(writer, "WR", &[at, word]);
        self.push(writer, "WR", &[at + 1, password]);
    }

    /// Queue the writing of a pair into a Clist.
    pub(super) fn give_in(&mut self, d: usize, list: &Object, base: u64, password: u64) -> bool {
        let Some(writer) = self.writer(d, list) else {
            return false;
        };
        let at = self.place(list);
        if self.random.percent(6) {
            // A pair that is only true for one who cuts numbers short.
            let (page, word) = match self.random.below(4) {
                0 => (base + 128, password),
                1 => (base + 256, password),
                2 => (base + (1 << 32), password),
                _ => (base, password ^ 1 << 40),
            };
            self.write_pair(writer, at, page, word);
            if let Some(at) = self.free_pair(list) {
                self.write_pair(writer, at, base, password);
            }
        } else {
            self.write_pair(writer, at, base, password);
        }
        true
    }

    /// Queue the writing of a pair into one of the domain's Clists.
    pub(super) fn give(&mut self, d: usize, base: u64, password: u64) -> bool {
        let lists = self.lists(d);
        if lists.is_empty() {
            return false;
        }
        let list = &lists[self.random.index(lists.len())];
        self.give_in(d, list, base, password)
    }
}
