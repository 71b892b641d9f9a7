//! Objects made and deleted: CR and DL.

use super::*;

impl Monitor {
    pub(super) fn create(
        &mut self,
        d: usize,
        page: u64,
        count: u64,
        password: u64,
        account: u64,
    ) -> Outcome {
        need(
            page < PAGES
                && (1..=ESTATE_PAGES).contains(&count)
                && password != 0
                && account < ACCOUNTS as u64,
            Refusal::Range,
        )?;
        let own = estate(d);
        let new = Object::new(page, count, password, account);
        let run = new.run();
        let meets = |o: &Object| o.run().start < run.end && run.start < o.run().end;
        need(
            own.start <= run.start && run.end <= own.end && !self.objects.iter().any(meets),
            Refusal::Place,
        )?;
        need(self.permits(d, account), Refusal::Account)?;
        need(self.fits(account, count), Refusal::Limit)?;
        need(self.objects_in(d) < MAX_OBJECTS, Refusal::Full)?;
        for address in new.words() {
            self.store[address as usize] = 0;
        }
        self.objects.push(new);
        done()
    }

    pub(super) fn delete(&mut self, d: usize, base: u64) -> Outcome {
        need(base < PAGES, Refusal::Range)?;
        let index = self.judge_base(d, base, D)?;
        self.objects.remove(index);
        done()
    }
}
