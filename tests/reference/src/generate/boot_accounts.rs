//! The limits, home accounts and sets of boots.

use super::*;

/// Where a boot line has them.
const LIMITS: usize = DOMAINS;
const HOMES: usize = LIMITS + ACCOUNTS;

/// The places of a domain's home account and of its set.
fn home_at(d: usize) -> usize {
    HOMES + 2 * d
}

fn set_at(d: usize) -> usize {
    HOMES + 2 * d + 1
}

impl Generator {
    /// The arguments of a boot behind its home passwords, in range.
    pub(super) fn boot_accounts(&mut self) -> Vec<u64> {
        let homes = self.home_accounts();
        let sets = self.sets(&homes);
        let ample = self.random.percent(65);
        let mut args: Vec<u64> = (0..ACCOUNTS as u64)
            .map(|account| self.limit(home_pages(&homes, account), ample))
            .collect();
        for d in 0..DOMAINS {
            args.extend([homes[d], sets[d]]);
        }
        args
    }

    fn home_accounts(&mut self) -> [u64; DOMAINS] {
        let (one, other) = (self.random.below(4), self.random.below(4));
        match self.random.below(5) {
            0 => [one; DOMAINS],
            1 => [0, 1, 2, 3],
            2 => [one, one, other, other],
            _ => [0; DOMAINS].map(|_| self.random.below(4)),
        }
    }

    /// A set for each domain: all accounts, its home's alone, or some more.
    fn sets(&mut self, homes: &[u64; DOMAINS]) -> [u64; DOMAINS] {
        let way = self.random.below(5);
        homes.map(|home| match way {
            0..=1 => MAX_SET,
            2 => 1 << home,
            3 => 1 << home | 1 << ((home + 1) % 4),
            _ => 1 << home | self.random.below(16),
        })
    }

    /// A limit that has room for so many home pages.
    fn limit(&mut self, homes: u64, ample: bool) -> u64 {
        let least = homes.max(1);
        if ample {
            return self.random.pick(&[128, 128, 128, 128, 127, 100]);
        }
        match self.random.below(8) {
            0..=1 => least,
            2 => least + 1,
            3 => least + self.random.below(8),
            4..=5 => least + self.random.below(20),
            6 => self.random.pick(&[16, 24, 32, 33, 40, 64]),
            _ => self.random.pick(&[127, 128]),
        }
    }

    /// A boot with every home on one account, and queued CRs that put all other
    /// pages on it too, as far as its limit goes.
    pub(super) fn one_account_boot(&mut self) -> Line {
        let mut line = self.boot_line();
        let account = self.random.below(4);
        line.args[LIMITS + account as usize] = self.random.pick(&[127, 128]);
        let first = self.random.index(DOMAINS);
        for d in (0..DOMAINS).map(|i| (first + i) % DOMAINS) {
            line.args[home_at(d)] = account;
            line.args[set_at(d)] |= 1 << account;
            let (page, password) = (estate(d).start + 1, self.password());
            self.push(d, "CR", &[page, 31, password, account]);
            self.push(d, "CR", &[page, 30, password, account]);
        }
        self.left = self.left.min(100);
        line
    }

    /// Put a boot line out of range, by one of its arguments.
    pub(super) fn spoil_boot(&mut self, line: &mut Line) {
        let i = self.random.index(4);
        let home = line.args[home_at(i)];
        match self.random.below(9) {
            0..=1 => line.args[i] = 0,
            2..=3 => line.args[LIMITS + i] = self.random.pick(&[0, 0, 129, 129, 256, 384, TOP]),
            4 => {
                let homes = (0..DOMAINS).filter(|&d| line.args[home_at(d)] == home);
                line.args[LIMITS + home as usize] = homes.count() as u64 - 1;
            }
            5 => line.args[home_at(i)] = self.random.pick(&[4, 4, home + 4, 256 + home, TOP]),
            6 => {
                let set = line.args[set_at(i)];
                let wrong = [16, 16, set + 16, set + 256, TOP];
                line.args[set_at(i)] = self.random.pick(&wrong);
            }
            7 => line.args[set_at(i)] = 0,
            _ => line.args[set_at(i)] &= !(1 << home),
        }
    }
}
