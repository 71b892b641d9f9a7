//! Accounts charged up to their limits and beyond, and pages given back.

use super::*;

/// Nothing fits an estate that has more pages than this.
const ROOM: u64 = ESTATE_PAGES;

impl Generator {
    /// How many pages the account has left.
    fn room(&self, account: u64) -> u64 {
        let limit = self.model.limits[account as usize];
        limit.saturating_sub(self.model.charged(account))
    }

    fn permitted(&self, d: usize) -> Vec<u64> {
        let accounts = 0..ACCOUNTS as u64;
        accounts.filter(|&a| self.model.permits(d, a)).collect()
    }

    /// An account that the domain may not charge, if there is one.
    fn forbidden(&mut self, d: usize) -> Option<u64> {
        let mut accounts: Vec<u64> = (0..ACCOUNTS as u64).collect();
        accounts.retain(|&a| !self.model.permits(d, a));
        (!accounts.is_empty()).then(|| self.random.pick(&accounts))
    }

    /// An account that the domain may charge and that an estate can use up.
    fn tight(&mut self, d: usize) -> Option<u64> {
        let mut accounts = self.permitted(d);
        accounts.retain(|&a| self.room(a) < ROOM);
        (!accounts.is_empty()).then(|| self.random.pick(&accounts))
    }

    /// An account for so many pages: mostly one that the domain may charge and
    /// that has room for them.
    fn account(&mut self, d: usize, pages: u64) -> u64 {
        let permitted = self.permitted(d);
        let mut fitting = permitted.clone();
        fitting.retain(|&a| self.room(a) >= pages);
        match self.random.below(24) {
            0 => self.likely(Kind::Account),
            1 if !permitted.is_empty() => self.random.pick(&permitted),
            _ if !fitting.is_empty() => self.random.pick(&fitting),
            _ => self.random.below(4),
        }
    }

    /// Queue a CR.
    pub(super) fn push_create(&mut self, d: usize, page: u64, count: u64, password: u64) {
        let account = self.account(d, count);
        self.push(d, "CR", &[page, count, password, account]);
    }

    /// The longest free run of the domain's estate.
    fn longest_gap(&self, d: usize) -> Option<(u64, u64)> {
        self.gaps(d).into_iter().max_by_key(|gap| gap.1)
    }

    /// An account charged to its limit, and one page more before or behind it.
    pub(super) fn meet_limit(&mut self, d: usize) {
        let (Some(account), Some((first, length))) = (self.tight(d), self.longest_gap(d)) else {
            return;
        };
        let (room, password) = (self.room(account), self.password());
        if room < length && self.random.percent(50) {
            self.push(d, "CR", &[first, room + 1, password, account]);
        }
        let most = room.min(length);
        if most > 0 {
            self.push(d, "CR", &[first, most, password, account]);
            self.give(d, first, password);
        }
        if most < length {
            self.push(d, "CR", &[first + most, 1, password, account]);
        }
        if most > 0 && self.random.percent(50) {
            self.push(d, "DL", &[first]);
            let count = 1 + self.random.below(most);
            self.push(d, "CR", &[first, count, password, account]);
        }
    }

    /// CRs that break several rules at once.
    pub(super) fn break_rules(&mut self, d: usize) {
        let (first, length) = self.longest_gap(d).unwrap_or((d as u64 * ESTATE_PAGES, 1));
        let taken = self.find(|_, o| (o.base / ESTATE_PAGES) as usize == d);
        let (one, own) = (self.password(), self.permitted(d));
        if let Some(forbidden) = self.forbidden(d) {
            let pages = (self.room(forbidden) + 1).min(length);
            self.push(d, "CR", &[first, pages, one, forbidden]);
            if let Some(taken) = &taken {
                self.push(d, "CR", &[taken.base, 1, one, forbidden]);
            }
        }
        if let Some(tight) = self.tight(d) {
            let pages = self.room(tight) + 1;
            let page = taken.map_or(first, |taken| taken.base);
            self.push(d, "CR", &[page, pages, one, tight]);
        }
        if !own.is_empty() {
            let account = self.random.pick(&own);
            let more = self.random.pick(&[4, 8, 16, 256, WIDE]);
            self.push(d, "CR", &[first, 1, one, account + more]);
        }
    }

    /// Eight objects in an estate, and CRs of accounts of every kind.
    pub(super) fn crowd_estate(&mut self, d: usize) {
        if self.model.objects_in(d) < MAX_OBJECTS {
            self.fill(d);
            return;
        }
        let Some((first, length)) = self.longest_gap(d) else {
            return;
        };
        let password = self.password();
        if let Some(tight) = self.tight(d).filter(|&a| self.room(a) < length) {
            let pages = self.room(tight) + 1;
            self.push(d, "CR", &[first, pages, password, tight]);
        }
        if let Some(forbidden) = self.forbidden(d) {
            self.push(d, "CR", &[first, 1, password, forbidden]);
        }
        self.push_create(d, first, 1, password);
    }

    /// An object on an account that is nearly used up, deleted by any domain:
    /// a CR that did not fit fits then.
    pub(super) fn give_back(&mut self, d: usize) {
        let user = self.some_domain();
        let Some((first, length)) = self.longest_gap(user) else {
            return;
        };
        let home = self.random.percent(15);
        let Some(object) = self.find(|m, o| {
            let room = m.limits[o.account as usize].saturating_sub(m.charged(o.account));
            let right = o.passwords.iter().any(|p| mode_grants(p.mode, D));
            right
                && room < length
                && m.permits(user, o.account)
                && (home || o.base % ESTATE_PAGES != 0)
        }) else {
            return;
        };
        let mut passwords = object.passwords.iter().filter(|p| mode_grants(p.mode, D));
        let Some(key) = passwords.next() else { return };
        let (password, account) = (self.password(), object.account);
        let room = self.room(account);
        let pages = (room + 1 + self.random.below(object.pages)).min(length);
        self.push(user, "CR", &[first, pages, password, account]);
        if self.model.granting_pair(d, &object, D).is_none() {
            self.give(d, object.base, key.word);
        }
        self.push(d, "DL", &[object.base]);
        self.push(user, "CR", &[first, pages, password, account]);
    }
}
