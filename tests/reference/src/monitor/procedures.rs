//! Calls of procedures and returns: CA and RT.

use super::*;

impl Monitor {
    pub(super) fn enter(&mut self, d: usize, address: u64, choice: u64) -> Outcome {
        need(address < WORDS && choice <= 1, Refusal::Range)?;
        let merge = choice == 0;
        need(!self.domains[d].now.whole, Refusal::Locked)?;
        let (index, _) = self.judge_at(d, address, P)?;
        let list = match &self.objects[index].registration {
            Some(r) if r.entries.contains(&address) => r.list,
            _ => return Err(Refusal::Entry),
        };
        let domain = &mut self.domains[d];
        need(
            !(merge && domain.now.slots.len() >= MAX_SLOTS) && domain.saved.len() < MAX_SAVED,
            Refusal::Full,
        )?;
        domain.saved.push(domain.now.clone());
        let now = &mut domain.now;
        if merge {
            let place = match now.locked {
                0 => now.slots.len().min(1),
                locked => locked,
            };
            now.slots.insert(place, list);
        } else {
            *now = Frame {
                slots: vec![list],
                locked: 0,
                whole: false,
            };
        }
        Ok(Done::Value(address))
    }

    pub(super) fn leave(&mut self, d: usize) -> Outcome {
        let domain = &mut self.domains[d];
        domain.now = domain.saved.pop().ok_or(Refusal::Absent)?;
        done()
    }
}
