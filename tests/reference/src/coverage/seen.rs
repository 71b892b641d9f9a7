//! A call as the situations look at it.

use super::charges::Charges;
use super::gaps::Gaps;
use super::restored::Restored;
use crate::monitor::*;

/// A true pair: its slot, address and mode.
pub(super) type Pair = (usize, u64, u64);

/// The pair that decides: the first that denies, else the first that grants.
fn deciding(pairs: &[Pair], rights: u64) -> Option<Pair> {
    let ban = pairs.iter().find(|p| mode_denies(p.2, rights));
    let grant = || pairs.iter().find(|p| mode_grants(p.2, rights));
    ban.or_else(grant).copied()
}

/// A call with the state before and after it, the pairs that WRs brought back
/// from behind an end before it, what was done to the accounts, and what was
/// taken away.
pub struct Seen<'a> {
    pub before: &'a Monitor,
    pub after: &'a Monitor,
    pub restored: &'a Restored,
    pub charges: &'a Charges,
    pub gaps: &'a Gaps,
    pub booted: bool,
    pub domain: u64,
    pub call: &'a Call,
    pub outcome: &'a Outcome,
}

impl Seen<'_> {
    pub(super) fn done(&self) -> bool {
        self.outcome.is_ok()
    }

    pub(super) fn refused(&self, refusal: Refusal) -> bool {
        *self.outcome == Err(refusal)
    }

    pub(super) fn d(&self) -> Option<usize> {
        (self.domain < DOMAINS as u64).then_some(self.domain as usize)
    }

    pub(super) fn now(&self) -> Option<&Frame> {
        Some(&self.before.domains[self.d()?].now)
    }

    pub(super) fn saved(&self) -> usize {
        self.d().map_or(0, |d| self.before.domains[d].saved.len())
    }

    /// The domain that RT would bring back.
    pub(super) fn last_saved(&self) -> Option<&Frame> {
        self.before.domains[self.d()?].saved.last()
    }

    pub(super) fn locked(&self) -> usize {
        self.now().map_or(0, |f| f.locked)
    }

    pub(super) fn slots(&self) -> usize {
        self.now().map_or(0, |f| f.slots.len())
    }

    pub(super) fn whole(&self) -> bool {
        self.now().is_some_and(|f| f.whole)
    }

    /// The object that the call wants rights on, and those rights.
    pub(super) fn wanted(&self) -> Option<(&Object, u64)> {
        let m = self.before;
        let (index, rights) = match *self.call {
            Call::Rd { address } => (m.index_at(address), R),
            Call::Wr { address, .. } => (m.index_at(address), W),
            Call::Ex { address } => (m.index_at(address), X),
            Call::Lk { address, rights } => (m.index_at(address), rights),
            Call::Ca { address, .. } => (m.index_at(address), P),
            Call::Dl { base } => (m.index_of_base(base), D),
            Call::Ap { base, .. } | Call::Dp { base, .. } | Call::Rg { base, .. } => {
                (m.index_of_base(base), OWNER)
            }
            _ => return None,
        };
        Some((&m.objects[index?], rights))
    }

    /// The true pairs for the wanted object in searching order.
    pub(super) fn pairs(&self) -> Vec<Pair> {
        self.true_pairs(|list| self.before.list_pairs(list).collect())
    }

    /// The true pairs among those at `places` of each Clist.
    fn true_pairs(&self, places: impl Fn(&Object) -> Vec<u64>) -> Vec<Pair> {
        let (Some((object, _)), Some(now)) = (self.wanted(), self.now()) else {
            return Vec::new();
        };
        let mut found = Vec::new();
        for (i, &slot) in now.slots.iter().enumerate() {
            let Some(list) = self.before.clist(slot) else {
                continue;
            };
            for at in places(list) {
                if self.before.word(at) / 256 == object.base {
                    if let Some(mode) = object.mode(self.before.word(at + 1)) {
                        found.push((i, at, mode));
                    }
                }
            }
        }
        found
    }

    /// Judged and answered 0 or 7, with the wanted rights.
    pub(super) fn judged(&self) -> Option<u64> {
        let (_, rights) = self.wanted()?;
        (self.done() || self.refused(Refusal::NotGranted)).then_some(rights)
    }

    /// The pair that decided.
    pub(super) fn decider(&self) -> Option<Pair> {
        deciding(&self.pairs(), self.judged()?)
    }

    /// The pair that would decide if every Clist were its whole object.
    pub(super) fn decider_without_ends(&self) -> Option<Pair> {
        let pairs = self.true_pairs(|list| list.words().step_by(2).collect());
        deciding(&pairs, self.judged()?)
    }

    /// The decider, when the call was done.
    pub(super) fn granter(&self) -> Option<Pair> {
        if !self.done() {
            return None;
        }
        self.decider()
    }

    /// The object of an owner's call that was judged and found.
    pub(super) fn owned(&self) -> Option<&Object> {
        match self.call {
            Call::Ap { .. } | Call::Dp { .. } | Call::Rg { .. } => {}
            _ => return None,
        }
        let (object, _) = self.wanted()?;
        let d = self.d()?;
        self.before.granting_pair(d, object, OWNER).map(|_| object)
    }

    /// Refused, though the page lies in an object that the domain owns.
    pub(super) fn inner_page(&self) -> bool {
        let (Call::Dl { base }
        | Call::Ap { base, .. }
        | Call::Dp { base, .. }
        | Call::Rg { base, .. }) = self.call
        else {
            return false;
        };
        if !self.refused(Refusal::NotGranted) {
            return false;
        }
        let (Some(d), Some(i)) = (self.d(), self.before.index_at(base * PAGE_WORDS)) else {
            return false;
        };
        let object = &self.before.objects[i];
        object.base != *base && self.before.granting_pair(d, object, OWNER).is_some()
    }

    pub(super) fn presented(&self) -> Option<Capability> {
        match *self.call {
            Call::In { list, .. } | Call::Rg { list, .. } => Some(list),
            _ => None,
        }
    }

    /// A refused presented capability's mode, if its page and password are true.
    pub(super) fn failed_mode(&self) -> Option<u64> {
        if !self.refused(Refusal::NotGranted) {
            return None;
        }
        let list = self.presented()?;
        let object = &self.before.objects[self.before.index_of_base(list.page)?];
        object.mode(list.password)
    }

    pub(super) fn merges(&self) -> bool {
        matches!(self.call, Call::Ca { choice: 0, .. })
    }

    pub(super) fn empties(&self) -> bool {
        matches!(self.call, Call::Ca { choice: 1, .. })
    }
}
