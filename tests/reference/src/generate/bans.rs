//! Plans about bans: pairs that deny what another pair grants, ahead of it,
//! behind it, in other lists, and behind the ends of lists.

use super::finding::owner;
use super::zero_pairs::Place;
use super::*;

/// A password of an object, for a pair that matters to a domain.
pub(super) struct Key {
    pub object: Object,
    pub password: u64,
    /// For a new password: its mode, and a domain that may add it.
    pub new: Option<(u64, usize)>,
}

impl Generator {
    /// A new negative password of an object on which the domain has a right; not
    /// of the object at `except`.
    fn ban_key(&mut self, d: usize, right: u64, except: Option<u64>) -> Option<Key> {
        let home = self.random.percent(8);
        let object = self.find(|m, o| {
            (home || o.base % ESTATE_PAGES != 0)
                && Some(o.base) != except
                && o.passwords.len() < MAX_PASSWORDS
                && m.granting_pair(d, o, right).is_some()
                && owner(m, o).is_some()
        })?;
        let by = owner(&self.model, &object)?;
        let password = self.new_password(&object);
        let rights = self.random.pick(&[0, 0, 0, 2, 4, 8, 15, 16, 31]);
        let mode = if self.random.percent(85) {
            NOT | right | rights
        } else {
            self.random.pick(&[129, 130, 132, 136, 144])
        };
        let new = Some((mode, by));
        Some(Key {
            object,
            password,
            new,
        })
    }

    /// A key with which the domain can read another object, or can no longer.
    pub(super) fn key(&mut self, d: usize, except: Option<u64>) -> Option<Key> {
        if self.random.percent(40) {
            if let Some(key) = self.ban_key(d, R, except) {
                return Some(key);
            }
        }
        let (object, password) = self.unread(d, except)?;
        Some(Key {
            object,
            password,
            new: None,
        })
    }

    /// Queue the key's pair at an address, and the AP of a new password: mostly
    /// ahead of the pair.
    pub(super) fn write_key(&mut self, writer: usize, at: u64, key: &Key) {
        let late = self.random.percent(20);
        if !late {
            self.add_key(key);
        }
        self.write_pair(writer, at, key.object.base, key.password);
        if late {
            self.add_key(key);
        }
    }

    fn add_key(&mut self, key: &Key) {
        if let Some((mode, by)) = key.new {
            self.push(by, "AP", &[key.object.base, key.password, mode]);
        }
    }

    /// Mostly queue the end of a new key: other words in its place, the DP of
    /// its password, or both. Who has the pair in a list of its own may be banned
    /// from the DP while it stands.
    pub(super) fn lift(&mut self, key: &Key, place: &Place) {
        let Some((_, by)) = key.new else { return };
        if self.random.percent(10) {
            return;
        }
        let met = self.lists(by).contains(&place.list);
        if met || self.random.percent(40) {
            let old = self.model.word(place.at + 1);
            self.push(place.writer, "WR", &[place.at + 1, old]);
        }
        self.drop_key(key);
    }

    /// Mostly queue the DP of a new password.
    pub(super) fn drop_key(&mut self, key: &Key) {
        if let Some((_, by)) = key.new {
            if self.random.percent(85) {
                self.push(by, "DP", &[key.object.base, key.password]);
            }
        }
    }

    /// A ban ahead of the pair that grants, behind it, or in another list.
    pub(super) fn ban(&mut self, d: usize) {
        let right = self.random.pick(&[R, R, R, W, W, X, D, P, P]);
        let Some(key) = self.ban_key(d, right, None) else {
            return;
        };
        let Some(granting) = self.model.granting_pair(d, &key.object, right) else {
            return;
        };
        let place = match self.random.below(3) {
            0 => self.ahead_of(d, granting, &key.object),
            1 => self.same_list(d, granting),
            _ => self.other_list(d, granting),
        };
        let Some(place) = place else { return };
        self.write_key(place.writer, place.at, &key);
        self.try_rights(d, &key.object);
        if right == D {
            self.push(d, "DL", &[key.object.base]);
        }
        self.lift(&key, &place);
        let address = self.within(&key.object);
        self.push(d, "LK", &[address, right]);
    }

    /// The place of a pair that grants; it moves down.
    fn ahead_of(&mut self, d: usize, granting: u64, object: &Object) -> Option<Place> {
        let free = self.same_list(d, granting)?;
        let password = self.model.word(granting + 1);
        self.write_pair(free.writer, free.at, object.base, password);
        Some(Place {
            at: granting,
            ..free
        })
    }

    /// A free place in the list of a pair that grants.
    fn same_list(&mut self, d: usize, granting: u64) -> Option<Place> {
        let list = self.model.objects[self.model.index_at(granting)?].clone();
        self.free_place(d, list)
    }

    /// A free place in another list of the domain; if there is none, and now and
    /// then, a slot is put in, ahead of the others or behind them.
    fn other_list(&mut self, d: usize, granting: u64) -> Option<Place> {
        let base = self.model.objects[self.model.index_at(granting)?].base;
        let mut lists = self.lists(d);
        lists.retain(|list| list.base != base);
        if lists.is_empty() || self.random.percent(30) {
            let list = self.list().filter(|list| list.page != base)?;
            let now = &self.model.domains[d].now;
            let ends = [now.locked as u64, now.slots.len() as u64];
            let slot = self.random.pick(&ends).min(7);
            self.push(d, "IN", &[slot, list.page, list.password]);
            lists = vec![self.model.clist(list)?.clone()];
        }
        let list = self.random.index(lists.len());
        self.free_place(d, lists.swap_remove(list))
    }

    fn free_place(&mut self, d: usize, list: Object) -> Option<Place> {
        let writer = self.writer(d, &list)?;
        let at = self.free_pair(&list)?;
        Some(Place { list, writer, at })
    }

    /// A ban behind the end of a list, which then grows up to it, and mostly
    /// ends ahead of it again.
    pub(super) fn ban_behind_end(&mut self, d: usize) {
        let Some(key) = self.ban_key(d, R, None) else {
            return;
        };
        let lists = self.lists(d);
        let Some(place) = self.behind_end(d, &lists) else {
            return;
        };
        self.write_key(place.writer, place.at, &key);
        let address = self.within(&key.object);
        self.grow(d, &place, address);
        self.end_again(d, &place, address);
        self.lift(&key, &place);
        self.ask(d, address);
    }
}
