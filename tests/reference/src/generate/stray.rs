//! Any call with any values, and lines put out of range.

use super::*;
use crate::lines::LETTERS;

impl Generator {
    pub(super) fn stray(&mut self, _: usize) {
        let line = self.stray_line();
        self.queue.push_back(line);
    }

    /// Any call with values that are likely to mean something.
    pub(super) fn stray_line(&mut self) -> Line {
        let domain = self.some_domain() as u64;
        let (letters, count) = self.random.pick(&LETTERS);
        if letters == "BT" {
            // A done boot ends the state: only `boot` makes one.
            let mut line = self.boot_line();
            self.spoil_boot(&mut line);
            return line;
        }
        let mut args: Vec<u64> = (0..count).map(|i| self.likely(kind(letters, i))).collect();
        if letters == "RG" {
            args.extend(self.stray_entries(args[0]));
        }
        Line::new(domain, letters, &args)
    }

    /// Entries for an RG: mostly inside its object, if there is one.
    fn stray_entries(&mut self, base: u64) -> Vec<u64> {
        let count = self.random.pick(&[0, 1, 1, 1, 2, 3, 4, 4, 5, 6]);
        let inside = self.random.percent(70);
        let near = self.model.index_of_base(base).filter(|_| inside);
        let object = near.map(|i| self.model.objects[i].clone());
        (0..count)
            .map(|_| match &object {
                Some(object) => self.within(object),
                None => self.likely(Kind::Address),
            })
            .collect()
    }

    /// Change one argument: to a bound, a neighbour, or a number that is the
    /// same when cut short.
    pub(super) fn distort(&mut self, line: &mut Line) {
        if line.args.is_empty() {
            return;
        }
        let at = self.random.index(line.args.len());
        let kind = kind(line.letters, at);
        let old = line.args[at];
        line.args[at] = match self.random.below(6) {
            0 => old.wrapping_add(1),
            1 => old.wrapping_sub(1),
            2 => {
                let bit = self.random.pick(&[5, 6, 7, 8, 13, 16, 32, 63]);
                old.wrapping_add(1 << bit)
            }
            3 => self.likely(kind),
            _ => self.random.pick(edges(kind)),
        };
        if line.letters == "RG" && self.random.percent(20) {
            let count = self.random.index(8);
            line.args.resize(4 + count, old % WORDS);
        }
    }

    /// Let the line come from no domain.
    pub(super) fn misdirect(&mut self, line: &mut Line) {
        let d = line.domain;
        line.domain = self
            .random
            .pick(&[4, 5, 255, TOP, d + 4, d + 256, d + WIDE, d + (1 << 63)]);
        if self.random.percent(30) {
            self.distort(line);
        }
    }
}
