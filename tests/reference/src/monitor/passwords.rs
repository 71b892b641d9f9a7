//! What an owner does with an object's passwords: AP, DP and RG.

use super::*;

impl Monitor {
    pub(super) fn add_password(
        &mut self,
        d: usize,
        base: u64,
        password: u64,
        mode: u64,
    ) -> Outcome {
        need(
            base < PAGES && password != 0 && legal_mode(mode),
            Refusal::Range,
        )?;
        need(!self.domains[d].now.whole, Refusal::Locked)?;
        let index = self.judge_base(d, base, OWNER)?;
        let object = &mut self.objects[index];
        need(object.mode(password).is_none(), Refusal::Known)?;
        need(object.passwords.len() < MAX_PASSWORDS, Refusal::Full)?;
        object.passwords.push(Password {
            word: password,
            mode,
        });
        done()
    }

    pub(super) fn drop_password(&mut self, d: usize, base: u64, password: u64) -> Outcome {
        need(base < PAGES, Refusal::Range)?;
        let index = self.judge_base(d, base, OWNER)?;
        let object = &mut self.objects[index];
        need(object.mode(password).is_some(), Refusal::Absent)?;
        if object.ordinary_mode(password).is_some() {
            object.passwords.retain(|p| p.word != password);
        } else {
            object.registration = None;
        }
        done()
    }

    pub(super) fn register(
        &mut self,
        d: usize,
        base: u64,
        password: u64,
        list: Capability,
        entries: &[u64],
    ) -> Outcome {
        need(
            base < PAGES
                && password != 0
                && list.page < PAGES
                && (1..=MAX_ENTRIES).contains(&entries.len())
                && entries.iter().all(|&e| e < WORDS),
            Refusal::Range,
        )?;
        need(!self.domains[d].now.whole, Refusal::Locked)?;
        let index = self.judge_base(d, base, OWNER)?;
        need(self.clist(list).is_some(), Refusal::NotGranted)?;
        let object = &mut self.objects[index];
        let words = object.words();
        need(entries.iter().all(|e| words.contains(e)), Refusal::Entry)?;
        need(object.mode(password).is_none(), Refusal::Known)?;
        need(object.registration.is_none(), Refusal::Full)?;
        object.registration = Some(Registration {
            password,
            list,
            entries: entries.to_vec(),
        });
        done()
    }
}
