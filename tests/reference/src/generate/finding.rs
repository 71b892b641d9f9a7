//! Finding what a plan needs in the model's state.

use super::*;

/// A domain that owns the object.
pub(super) fn owner(model: &Monitor, object: &Object) -> Option<usize> {
    (0..DOMAINS).find(|&d| model.granting_pair(d, object, OWNER).is_some())
}

/// The passwords by which the object is a Clist.
pub(super) fn list_passwords(object: &Object) -> impl Iterator<Item = u64> + '_ {
    let good = object.passwords.iter().filter(|p| mode_grants(p.mode, R));
    good.map(|p| p.word)
}

impl Generator {
    /// An object that passes the test.
    pub(super) fn find(&mut self, test: impl Fn(&Monitor, &Object) -> bool) -> Option<Object> {
        let objects = &self.model.objects;
        if objects.is_empty() {
            return None;
        }
        let start = self.random.index(objects.len());
        let (before, after) = objects.split_at(start);
        after
            .iter()
            .chain(before)
            .find(|o| test(&self.model, o))
            .cloned()
    }

    pub(super) fn owned(&mut self, d: usize) -> Option<Object> {
        self.find(|m, o| m.granting_pair(d, o, OWNER).is_some())
    }

    /// A capability that passes rule 1.
    pub(super) fn list(&mut self) -> Option<Capability> {
        let object = self.find(|_, o| list_passwords(o).next().is_some())?;
        let good: Vec<u64> = list_passwords(&object).collect();
        Some(Capability {
            page: object.base,
            password: self.random.pick(&good),
        })
    }

    /// An object that the domain may not read, and a password with which it
    /// could; not the object at `except`.
    pub(super) fn unread(&mut self, d: usize, except: Option<u64>) -> Option<(Object, u64)> {
        let object = self.find(|m, o| {
            Some(o.base) != except
                && m.granting_pair(d, o, R).is_none()
                && list_passwords(o).next().is_some()
        })?;
        let password = list_passwords(&object).next()?;
        Some((object, password))
    }

    /// The Clists of a domain's live slots.
    pub(super) fn lists(&self, d: usize) -> Vec<Object> {
        let slots = &self.model.domains[d].now.slots;
        slots
            .iter()
            .filter_map(|&s| self.model.clist(s).cloned())
            .collect()
    }

    /// A domain that may write the object, the given one first.
    pub(super) fn writer(&self, d: usize, object: &Object) -> Option<usize> {
        (0..DOMAINS)
            .map(|i| (d + i) % DOMAINS)
            .find(|&e| self.model.granting_pair(e, object, W).is_some())
    }

    /// Free runs of the domain's estate, as first page and length.
    pub(super) fn gaps(&self, d: usize) -> Vec<(u64, u64)> {
        let mut gaps = Vec::new();
        let mut length = 0;
        for page in estate(d) {
            if self.model.index_at(page * PAGE_WORDS).is_some() {
                length = 0;
                continue;
            }
            length += 1;
            if length == 1 {
                gaps.push((page, 1));
            } else {
                gaps.last_mut().expect("begun").1 = length;
            }
        }
        gaps
    }

    /// A registered object that the domain may enter now.
    pub(super) fn door(&mut self, d: usize) -> Option<(Object, Registration)> {
        let object =
            self.find(|m, o| o.registration.is_some() && m.granting_pair(d, o, P).is_some())?;
        let registration = object.registration.clone()?;
        Some((object, registration))
    }
}
