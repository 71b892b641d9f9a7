//! Accounts: what they are charged, and who may charge them.

use super::*;

/// Whether a set holds the account.
pub fn in_set(set: u64, account: u64) -> bool {
    account < ACCOUNTS as u64 && set >> account & 1 == 1
}

impl Monitor {
    /// The pages of the objects that stand on the account.
    pub fn charged(&self, account: u64) -> u64 {
        let objects = self.objects.iter().filter(|o| o.account == account);
        objects.map(|o| o.pages).sum()
    }

    /// The charged pages of each account.
    pub fn figures(&self) -> [u64; ACCOUNTS] {
        [0, 1, 2, 3].map(|account| self.charged(account))
    }

    /// Whether the domain may charge the account.
    pub fn permits(&self, domain: usize, account: u64) -> bool {
        in_set(self.sets[domain], account)
    }

    /// Whether so many pages more keep the account within its limit.
    pub fn fits(&self, account: u64, pages: u64) -> bool {
        self.charged(account) + pages <= self.limits[account as usize]
    }
}
