//! A domain's slots: IN, RM, GT and LO.

use super::*;

impl Monitor {
    pub(super) fn insert(&mut self, d: usize, slot: u64, list: Capability) -> Outcome {
        need(slot < MAX_SLOTS as u64 && list.page < PAGES, Refusal::Range)?;
        let slot = slot as usize;
        let now = &self.domains[d].now;
        need(slot >= now.locked && !now.whole, Refusal::Locked)?;
        need(self.clist(list).is_some(), Refusal::NotGranted)?;
        need(now.slots.len() < MAX_SLOTS, Refusal::Full)?;
        need(slot <= now.slots.len(), Refusal::Absent)?;
        self.domains[d].now.slots.insert(slot, list);
        done()
    }

    pub(super) fn remove(&mut self, d: usize, slot: u64) -> Outcome {
        need(slot < MAX_SLOTS as u64, Refusal::Range)?;
        let slot = slot as usize;
        let now = &mut self.domains[d].now;
        need(slot >= now.locked && !now.whole, Refusal::Locked)?;
        need(slot < now.slots.len(), Refusal::Absent)?;
        now.slots.remove(slot);
        done()
    }

    pub(super) fn get(&self, d: usize) -> Outcome {
        let now = &self.domains[d].now;
        let mut fields = vec![now.slots.len() as u64, now.locked as u64, now.whole as u64];
        fields.extend(now.slots.iter().map(|s| s.page));
        Ok(Done::Fields(fields))
    }

    pub(super) fn lock(&mut self, d: usize, slot: u64) -> Outcome {
        need(slot < MAX_SLOTS as u64 || slot == WHOLE, Refusal::Range)?;
        let now = &mut self.domains[d].now;
        if slot == WHOLE {
            now.whole = true;
            return done();
        }
        let slot = slot as usize;
        need(slot < now.slots.len(), Refusal::Absent)?;
        now.locked = now.locked.max(slot + 1);
        done()
    }
}
