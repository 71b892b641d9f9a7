//! A slot that dies and comes to life again.

use super::finding::owner;
use super::*;

/// A slot's object and password, and who may change them.
struct Ghost {
    owner: usize,
    object: Object,
    password: u64,
    slot: u64,
    /// What the slot's Clist alone grants, or bans.
    address: u64,
}

impl Generator {
    /// A slot whose password is dropped, comes back in another role, and
    /// comes back as it was; or whose object is deleted and made again.
    pub(super) fn ghost(&mut self, d: usize) {
        let Some(object) = self.find(|m, o| {
            o.base % ESTATE_PAGES != 0 && o.passwords.len() < MAX_PASSWORDS && owner(m, o).is_some()
        }) else {
            return;
        };
        let Some(owner) = owner(&self.model, &object) else {
            return;
        };
        let base = object.base;
        let password = self.new_password(&object);
        let now = &self.model.domains[d].now;
        let slot = now.locked.max(now.slots.len().min(1)).min(7) as u64;
        let key = self.key(d, Some(base));
        let ghost = Ghost {
            owner,
            password,
            slot,
            address: key.as_ref().map_or(0, |key| key.object.words().start),
            object,
        };
        self.push(owner, "AP", &[base, password, R]);
        let object = &ghost.object;
        if let (Some(free), Some(writer), Some(key)) =
            (self.free_pair(object), self.writer(d, object), &key)
        {
            self.write_key(writer, free, key);
        }
        self.push(d, "IN", &[slot, base, password]);
        self.probe(d, &ghost);
        match self.random.below(4) {
            0 => self.delete_and_make(d, &ghost),
            1 => self.drop_and_register(d, &ghost),
            _ => self.drop_and_add(d, &ghost),
        }
        self.push(d, "RM", &[slot]);
        if let Some(key) = key {
            self.drop_key(&key);
        }
    }

    /// Is the slot live?
    fn probe(&mut self, d: usize, ghost: &Ghost) {
        self.push(d, "LK", &[ghost.address, R]);
        if self.random.percent(50) {
            self.push(d, "GT", &[]);
            self.access(d);
        }
        if self.random.percent(40) {
            self.push(d, "IN", &[ghost.slot, ghost.object.base, ghost.password]);
        }
    }

    fn delete_and_make(&mut self, d: usize, ghost: &Ghost) {
        let object = &ghost.object;
        let home = (object.base / ESTATE_PAGES) as usize;
        self.push(ghost.owner, "DL", &[object.base]);
        self.probe(d, ghost);
        self.push_create(home, object.base, object.pages, ghost.password);
        self.probe(d, ghost);
    }

    fn drop_and_register(&mut self, d: usize, ghost: &Ghost) {
        let (base, password) = (ghost.object.base, ghost.password);
        self.push(ghost.owner, "DP", &[base, password]);
        self.probe(d, ghost);
        let list = self.list().unwrap_or(Capability {
            page: base,
            password,
        });
        let entries = self.entries(&ghost.object);
        if let Some(r) = &ghost.object.registration {
            self.push(ghost.owner, "DP", &[base, r.password]);
        }
        self.push_register(ghost.owner, base, password, list, &entries);
        self.probe(d, ghost);
    }

    fn drop_and_add(&mut self, d: usize, ghost: &Ghost) {
        let (owner, base, password) = (ghost.owner, ghost.object.base, ghost.password);
        self.push(owner, "DP", &[base, password]);
        self.probe(d, ghost);
        let mode = self.random.pick(&[129, 143, 2, 14, 130]);
        self.push(owner, "AP", &[base, password, mode]);
        self.probe(d, ghost);
        self.push(owner, "DP", &[base, password]);
        self.push(owner, "AP", &[base, password, 5]);
        self.probe(d, ghost);
    }
}
