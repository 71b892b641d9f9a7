//! Plans about the ends of Clists: pairs behind an end, ends filled and moved,
//! lists without an end.

use super::bans::Key;
use super::finding::{list_passwords, owner};
use super::zero_pairs::Place;
use super::*;

impl Generator {
    /// A pair behind the end of a Clist, which then grows up to the pair, and
    /// mostly ends ahead of it again.
    pub(super) fn pair_behind(&mut self, d: usize) {
        let Some((target, password)) = self.unread(d, None) else {
            return;
        };
        let mut lists = self.lists(d);
        if self.random.percent(40) && lists.iter().any(|list| list.pages > 1) {
            lists.retain(|list| list.pages > 1);
        }
        let Some(place) = self.behind_end(d, &lists) else {
            return;
        };
        self.write_pair(place.writer, place.at, target.base, password);
        let address = self.within(&target);
        self.grow(d, &place, address);
        self.end_again(d, &place, address);
    }

    /// An end ahead of the pair that grants, calls that want various rights,
    /// and the words that were there.
    pub(super) fn early_end(&mut self, d: usize) {
        let Some(object) = self.find(|m, o| {
            let at = m.granting_pair(d, o, R);
            at.is_some_and(|at| at % PAGE_WORDS != 0)
        }) else {
            return;
        };
        let Some((at, list, writer)) = self.granting_place(d, &object) else {
            return;
        };
        let Some(old) = self.end_ahead(&Place { list, writer, at }) else {
            return;
        };
        self.try_rights(d, &object);
        if self.random.percent(20) {
            self.push(d, "DL", &[object.base]);
        }
        let address = self.within(&object);
        self.restore(d, writer, old, address);
    }

    /// A pair behind the end of a Clist ahead of the one that grants: it would
    /// be the first that grants, or a ban.
    pub(super) fn earlier_pair_behind(&mut self, d: usize) {
        let Some(object) = self
            .find(|m, o| m.granting_pair(d, o, R).is_some() && list_passwords(o).next().is_some())
        else {
            return;
        };
        let Some((_, granting, _)) = self.granting_place(d, &object) else {
            return;
        };
        let Some(place) = self.earlier_place(d, &granting) else {
            return;
        };
        let full = object.passwords.len() == MAX_PASSWORDS;
        let password = list_passwords(&object).next().unwrap_or(1);
        let mut key = Key {
            object,
            password,
            new: None,
        };
        if let Some(owner) = owner(&self.model, &key.object).filter(|_| !full) {
            key.password = self.new_password(&key.object);
            let mode = self.random.pick(&[129, 129, 131, 143, 159, 1, 15]);
            key.new = Some((mode, owner));
        }
        self.write_key(place.writer, place.at, &key);
        let address = self.within(&key.object);
        self.grow(d, &place, address);
        self.end_again(d, &place, address);
        self.lift(&key, &place);
    }

    /// A place behind the end of a Clist in a slot ahead of the granting one;
    /// if there is none, a slot may be put in.
    fn earlier_place(&mut self, d: usize, granting: &Object) -> Option<Place> {
        let mut earlier = self.lists(d);
        let slot = earlier.iter().position(|list| list == granting)?;
        earlier.truncate(slot);
        if let Some(place) = self.behind_end(d, &earlier) {
            return Some(place);
        }
        let list = self.list().filter(|list| list.page != granting.base)?;
        let object = self.model.clist(list)?.clone();
        let place = self.behind_end(d, &[object])?;
        let locked = self.model.domains[d].now.locked as u64;
        self.push(d, "IN", &[locked.min(7), list.page, list.password]);
        Some(place)
    }

    /// A Clist that fills its object; its last pair grants or bans.
    pub(super) fn full_list(&mut self, d: usize) {
        let short = |list: &Object| list.pages < 3;
        let lists: Vec<Object> = self.lists(d).into_iter().filter(short).collect();
        if !lists.is_empty() {
            let list = &lists[self.random.index(lists.len())];
            self.reach(d, list, list.words().end - 2);
        }
    }

    /// A pair at an address of a Clist, and a list that grows up to it.
    pub(super) fn reach(&mut self, d: usize, list: &Object, at: u64) {
        let key = self.key(d, None);
        let (Some(writer), Some(key)) = (self.writer(d, list), key) else {
            return;
        };
        self.write_key(writer, at, &key);
        let address = self.within(&key.object);
        let list = list.clone();
        let place = Place { list, writer, at };
        self.grow(d, &place, address);
        self.end_again(d, &place, address);
        self.lift(&key, &place);
    }
}
