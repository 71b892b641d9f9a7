//! The boot: BT.

use super::*;

impl Monitor {
    pub(super) fn boot(
        &mut self,
        homes: [u64; DOMAINS],
        limits: [u64; ACCOUNTS],
        accounts: [u64; DOMAINS],
        sets: [u64; DOMAINS],
    ) -> Outcome {
        need(
            homes.iter().all(|&p| p != 0)
                && limits.iter().all(|l| (1..=MAX_LIMIT).contains(l))
                && sets.iter().all(|&set| set <= MAX_SET)
                && (0..DOMAINS).all(|d| in_set(sets[d], accounts[d]))
                && (0..ACCOUNTS).all(|a| home_pages(&accounts, a as u64) <= limits[a]),
            Refusal::Range,
        )?;
        *self = Monitor::new();
        self.limits = limits;
        self.sets = sets;
        for (d, &password) in homes.iter().enumerate() {
            let base = estate(d).start;
            let home = Object::new(base, 1, password, accounts[d]);
            self.objects.push(home);
            let slot = Capability {
                page: base,
                password,
            };
            self.domains[d].now.slots.push(slot);
            let first = (base * PAGE_WORDS) as usize;
            self.store[first] = base * 256 + OWNER;
            self.store[first + 1] = password;
        }
        done()
    }
}

/// The home pages on an account: one for each domain whose home account it is.
pub fn home_pages(accounts: &[u64; DOMAINS], account: u64) -> u64 {
    accounts.iter().filter(|&&a| a == account).count() as u64
}
