//! Which capabilities open a Clist, where it ends, and which pairs grant an
//! access.

use super::*;

impl Monitor {
    /// Rule 1: the object that the capability names by an ordinary password
    /// whose mode is positive and holds R.
    pub fn clist(&self, capability: Capability) -> Option<&Object> {
        let object = &self.objects[self.index_of_base(capability.page)?];
        let mode = object.ordinary_mode(capability.password)?;
        mode_grants(mode, R).then_some(object)
    }

    /// The addresses of a Clist's pairs. It ends before the object's first
    /// pair whose two words are both zero.
    pub fn list_pairs(&self, list: &Object) -> impl Iterator<Item = u64> + '_ {
        let places = list.words().step_by(2);
        places.take_while(|&at| self.word(at) != 0 || self.word(at + 1) != 0)
    }

    /// Rules 2 and 3: the address of the first pair that grants, if there is one
    /// and no pair denies, wherever it stands in the domain's live lists.
    pub fn granting_pair(&self, domain: usize, object: &Object, wanted: u64) -> Option<u64> {
        let mut first = None;
        for &slot in &self.domains[domain].now.slots {
            let Some(list) = self.clist(slot) else {
                continue;
            };
            for at in self.list_pairs(list) {
                if self.word(at) / 256 != object.base {
                    continue;
                }
                let Some(mode) = object.mode(self.word(at + 1)) else {
                    continue;
                };
                if mode_denies(mode, wanted) {
                    return None;
                }
                if first.is_none() && mode_grants(mode, wanted) {
                    first = Some(at);
                }
            }
        }
        first
    }

    /// Judge an access to an object, or to none; its index and the granting pair.
    pub(super) fn judge(
        &self,
        domain: usize,
        index: Option<usize>,
        wanted: u64,
    ) -> Result<(usize, u64), Refusal> {
        let index = index.ok_or(Refusal::NotGranted)?;
        let pair = self
            .granting_pair(domain, &self.objects[index], wanted)
            .ok_or(Refusal::NotGranted)?;
        Ok((index, pair))
    }

    pub(super) fn judge_at(
        &self,
        domain: usize,
        address: u64,
        wanted: u64,
    ) -> Result<(usize, u64), Refusal> {
        self.judge(domain, self.index_at(address), wanted)
    }

    pub(super) fn judge_base(
        &self,
        domain: usize,
        base: u64,
        wanted: u64,
    ) -> Result<usize, Refusal> {
        let (index, _) = self.judge(domain, self.index_of_base(base), wanted)?;
        Ok(index)
    }
}
