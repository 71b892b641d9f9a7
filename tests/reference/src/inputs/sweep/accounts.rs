//! Limits, sets and accounts.

use super::{Sweep, TOP};

impl Sweep {
    /// Every limit, with the homes on its account: it is charged to the limit, and
    /// each time one page more is tried first and behind it.
    pub(super) fn limits(&mut self) {
        for limit in (0..=130).chain([255, 256, 257, 1 << 32, TOP]) {
            for account in [0, 3] {
                let mut limits = [1; 4];
                limits[account] = limit;
                self.boot_with(limits, [account as u64; 4], [1 << account; 4]);
                self.charge_all(account, limit.saturating_sub(4).min(124));
            }
        }
    }

    /// Limits below four, with the homes on another account.
    pub(super) fn small_limits(&mut self) {
        for limit in 1..=4 {
            self.boot_with([4, 1, limit, 1], [0; 4], [5; 4]);
            self.add(format!("0,CR,1,{},5,2", limit + 1));
            for d in 0..=limit {
                self.add(format!("{},CR,{},1,5,2", d % 4, d % 4 * 32 + 1 + d / 4));
            }
        }
    }

    /// So many pages by four domains by turns: each estate but for a page, then
    /// the last page of each.
    fn charge_all(&mut self, account: usize, mut left: u64) {
        for d in 0..4 {
            let (page, pages) = (32 * d + 1, left.min(30));
            left -= pages;
            if left == 0 {
                self.add(format!("{d},CR,{page},{},5,{account}", pages + 1));
            }
            self.add(format!("{d},CR,{page},{pages},5,{account}"));
        }
        for d in 0..4 {
            self.add(format!("{d},CR,{},1,5,{account}", 32 * d + 31));
        }
    }

    /// Every set with every account, the home's among them or not.
    pub(super) fn sets(&mut self) {
        for set in (0..=17).chain([31, 255, 256, 271, TOP]) {
            for home in 0..=4 {
                self.boot_with([9; 4], [home, 0, 1, 2], [set, 1, 2, 4]);
                for account in [0, 1, 2, 3, 4, 5, 255, 256, 1 << 32, TOP] {
                    self.add(format!("0,CR,1,1,5,{account}"));
                    self.add("0,WR,2,256");
                    self.add("0,WR,3,5");
                    self.add("0,DL,1");
                }
            }
        }
    }

    /// A set for each domain by itself, and who may charge what.
    pub(super) fn charges(&mut self) {
        for shift in 0..4 {
            let homes = [0, 1, 2, 3].map(|d| (d + shift) % 4);
            self.boot_with([4; 4], homes, homes.map(|home| 1 << home));
            for page in 1..=4 {
                for d in 0..4 {
                    for account in 0..4 {
                        self.add(format!("{d},CR,{},1,5,{account}", 32 * d + page));
                    }
                }
            }
        }
    }

    fn boot_with(&mut self, limits: [u64; 4], homes: [u64; 4], sets: [u64; 4]) {
        let limits = limits.map(|limit| limit.to_string()).join(",");
        let pairs = [0, 1, 2, 3].map(|d| format!("{},{}", homes[d], sets[d]));
        self.add(format!("0,BT,11,12,13,14,{limits},{}", pairs.join(",")));
    }
}
