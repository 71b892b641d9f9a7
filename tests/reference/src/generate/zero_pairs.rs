//! Zero pairs in Clists: filled, and made.

use super::*;

/// A Clist, a domain that may write it, and a pair in it that matters.
pub(super) struct Place {
    pub list: Object,
    pub writer: usize,
    pub at: u64,
}

impl Generator {
    /// A place behind the end of one of the Clists.
    pub(super) fn behind_end(&mut self, d: usize, lists: &[Object]) -> Option<Place> {
        if lists.is_empty() {
            return None;
        }
        let list = lists[self.random.index(lists.len())].clone();
        let writer = self.writer(d, &list)?;
        let end = self.free_pair(&list)?;
        let behind = (list.words().end - end) / 2 - 1;
        if behind == 0 {
            return None;
        }
        let at = end + 2 + 2 * self.random.below(behind.min(4));
        Some(Place { list, writer, at })
    }

    /// Queue writes that fill the zero pairs ahead of a place, if they are not
    /// too many, and ask ahead of the last of them and behind it.
    pub(super) fn grow(&mut self, d: usize, place: &Place, address: u64) {
        let ahead = (place.list.words().start..place.at).step_by(2);
        let zero = |&at: &u64| self.model.word(at) == 0 && self.model.word(at + 1) == 0;
        let mut zeros: Vec<u64> = ahead.filter(zero).collect();
        self.ask(d, address);
        if zeros.is_empty() || zeros.len() > 70 {
            return;
        }
        let last = if self.random.percent(50) {
            zeros.len() - 1
        } else {
            self.random.index(zeros.len())
        };
        let last = zeros.remove(last);
        for at in zeros {
            self.fill_pair(place.writer, at);
        }
        self.ask(d, address);
        self.fill_pair(place.writer, last);
        self.ask(d, address);
    }

    /// Queue a write after which a zero pair is none; mostly of one word.
    fn fill_pair(&mut self, writer: usize, at: u64) {
        match self.random.below(8) {
            0..=2 => {
                let password = self.password();
                self.push(writer, "WR", &[at + 1, password]);
            }
            3..=4 => {
                let word = (1 + self.random.below(PAGES)) * 256 + self.hint();
                self.push(writer, "WR", &[at, word]);
            }
            5 => {
                let hint = 1 + self.random.below(255);
                self.push(writer, "WR", &[at, hint]);
            }
            6 => {
                let (word, bit) = (at + self.random.below(2), self.random.below(64));
                self.push(writer, "WR", &[word, 1 << bit]);
            }
            _ => {
                let (page, password) = (self.likely(Kind::Page), self.password());
                self.write_pair(writer, at, page, password);
            }
        }
    }

    pub(super) fn ask(&mut self, d: usize, address: u64) {
        if self.random.percent(75) {
            self.push(d, "LK", &[address, R]);
        } else {
            self.push(d, "RD", &[address]);
        }
    }

    /// Queue an end of a Clist ahead of a place; the words that were there.
    pub(super) fn end_ahead(&mut self, place: &Place) -> Option<[(u64, u64); 2]> {
        // The pair by which the list is written stays.
        let words = place.list.words();
        let by = self.model.granting_pair(place.writer, &place.list, W);
        let by = by.filter(|at| words.contains(at));
        let first = by.map_or(words.start, |at| at + 2);
        if first >= place.at {
            return None;
        }
        let page_end = words.start + PAGE_WORDS - 2;
        let at = match self.random.below(4) {
            0 => place.at - 2,
            1..=2 if (first..place.at).contains(&page_end) => page_end,
            _ => first + 2 * self.random.below((place.at - first) / 2),
        };
        let mut old = [at, at + 1].map(|at| (at, self.model.word(at)));
        if old == [(at, 0), (at + 1, 0)] {
            // A queued line fills it.
            old[1].1 = self.password();
        }
        for at in [at, at + 1] {
            self.push(place.writer, "WR", &[at, 0]);
        }
        Some(old)
    }

    /// Mostly queue the writing of old words, in any order.
    pub(super) fn restore(
        &mut self,
        d: usize,
        writer: usize,
        mut old: [(u64, u64); 2],
        address: u64,
    ) {
        if self.random.percent(85) {
            old.swap(0, self.random.index(2));
            for (at, word) in old {
                self.push(writer, "WR", &[at, word]);
                self.ask(d, address);
            }
        }
    }

    /// Mostly queue an end ahead of a place, and the words that were there.
    pub(super) fn end_again(&mut self, d: usize, place: &Place, address: u64) {
        if self.random.percent(30) {
            return;
        }
        if let Some(old) = self.end_ahead(place) {
            self.ask(d, address);
            self.restore(d, place.writer, old, address);
        }
    }
}
