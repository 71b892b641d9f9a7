//! Choosing values.

use super::*;

impl Generator {
    pub(super) fn password(&mut self) -> u64 {
        if self.random.percent(85) {
            let at = self.random.index(self.pool.len());
            self.pool[at]
        } else {
            1 + self.random.below(1000)
        }
    }

    /// A password that the object does not have.
    pub(super) fn new_password(&mut self, object: &Object) -> u64 {
        loop {
            let password = self.password();
            if object.mode(password).is_none() {
                return password;
            }
        }
    }

    pub(super) fn mode(&mut self) -> u64 {
        loop {
            let mode = if self.random.percent(50) {
                self.random.pick(&[1, 2, 3, 4, 8, 12, 15, 15])
            } else if self.random.percent(60) {
                self.random.pick(&[129, 130, 132, 136, 143, 144, 159])
            } else {
                self.random.below(256)
            };
            if legal_mode(mode) {
                return mode;
            }
        }
    }

    pub(super) fn rights(&mut self) -> u64 {
        if self.random.percent(70) {
            self.random.pick(&[1, 2, 4, 8, 16, 3, 15, 5, 9])
        } else {
            1 + self.random.below(31)
        }
    }

    pub(super) fn hint(&mut self) -> u64 {
        if self.random.percent(50) {
            self.random.pick(&[0, 1, 3, 15, 16, 31, 128, 143, 255])
        } else {
            self.random.below(256)
        }
    }

    /// An address in the object.
    pub(super) fn within(&mut self, object: &Object) -> u64 {
        let words = object.words();
        match self.random.below(4) {
            0 => words.start,
            1 => words.end - 1,
            _ => words.start + self.random.below(words.end - words.start),
        }
    }

    /// The object's base; now and then its last page, which is no base.
    pub(super) fn base(&mut self, object: &Object) -> u64 {
        if object.pages > 1 && self.random.percent(10) {
            object.run().end - 1
        } else {
            object.base
        }
    }

    /// A word to write: often one that can be half of a pair.
    pub(super) fn value(&mut self, address: u64) -> u64 {
        match self.random.below(10) {
            0 => self.random.word(),
            1 => self.random.pick(edges(Kind::Value)),
            _ if address & 1 == 0 => {
                let page = self.likely(Kind::Page) % 128;
                page * 256 + self.hint()
            }
            _ => self.likely(Kind::Password),
        }
    }

    pub(super) fn some_domain(&mut self) -> usize {
        self.random.index(DOMAINS)
    }

    /// A value that is likely to mean something.
    pub(super) fn likely(&mut self, kind: Kind) -> u64 {
        if self.random.percent(6) {
            return self.random.pick(edges(kind));
        }
        match kind {
            Kind::Address => self.likely_address(),
            Kind::Value => self.random.below(40_000),
            Kind::Page => self.likely_page(),
            Kind::Count => 1 + self.random.below(4),
            Kind::Password => self.likely_password(),
            Kind::Rights => self.rights(),
            Kind::Mode => self.mode(),
            Kind::Slot => self.random.below(8),
            Kind::Choice => self.random.below(2),
            Kind::Limit => 1 + self.random.below(MAX_LIMIT),
            Kind::Account => self.random.below(4),
            Kind::Set => self.random.below(16),
        }
    }

    fn likely_address(&mut self) -> u64 {
        let registered = self.random.percent(25);
        match self.find(|_, o| !registered || o.registration.is_some()) {
            Some(Object {
                registration: Some(r),
                ..
            }) if registered => self.random.pick(&r.entries),
            Some(object) if self.random.percent(85) => self.within(&object),
            _ => self.random.below(WORDS),
        }
    }

    fn likely_page(&mut self) -> u64 {
        match self.find(|_, _| true) {
            Some(object) if self.random.percent(80) => object.base,
            Some(object) if self.random.percent(50) => object.run().end - 1,
            _ => self.random.below(PAGES),
        }
    }

    fn likely_password(&mut self) -> u64 {
        match self.find(|_, _| true) {
            Some(object) if self.random.percent(60) => {
                let mut words = object.all_passwords();
                words.push(1);
                self.random.pick(&words)
            }
            _ => self.password(),
        }
    }
}
