//! Boots, and what each of them settles for the lines behind it.

use super::plans::PLANS;
use super::*;

impl Generator {
    /// A boot line; now and then a refused one before it.
    pub(super) fn boot(&mut self) -> Vec<u8> {
        if self.random.percent(20) {
            let mut line = self.boot_line();
            if self.random.percent(80) {
                self.spoil_boot(&mut line);
            } else {
                line.domain = self.random.pick(&[4, 5, TOP]);
            }
            let bytes = line.bytes();
            self.play(&bytes);
            return bytes;
        }
        self.mood();
        self.queue.clear();
        self.graves.clear();
        self.recent = TOP;
        self.booted = true;
        let length = self.random.pick(&[40, 200, 600, 1500, 4000]);
        self.left = 20 + self.random.below(length);
        let line = if self.random.percent(5) {
            self.one_account_boot()
        } else {
            self.boot_line()
        };
        let bytes = line.bytes();
        self.play(&bytes);
        bytes
    }

    pub(super) fn boot_line(&mut self) -> Line {
        let domain = self.random.below(4);
        let mut homes: Vec<u64> = (0..4).map(|_| self.password()).collect();
        if self.random.percent(10) {
            homes = vec![homes[0]; 4];
        }
        homes.extend(self.boot_accounts());
        Line::new(domain, "BT", &homes)
    }

    /// New passwords, weights and busy domains.
    pub(super) fn mood(&mut self) {
        self.pool = vec![1, TOP, 1 << 63, WIDE, 255, 256, 15];
        for _ in 0..8 {
            let small = 2 + self.random.below(60);
            self.pool.push(small);
        }
        let wide = self.random.word();
        self.pool.push(wide | 1);
        self.weights = PLANS
            .iter()
            .map(|&(_, weight)| weight * self.random.pick(&[0, 1, 2, 2, 4]))
            .collect();
        self.weights[0] += 8;
        self.domains = match self.random.below(3) {
            0 => vec![0, 1, 2, 3],
            1 => {
                let busy = self.random.index(DOMAINS);
                vec![0, 1, 2, 3, busy, busy, busy, busy, busy]
            }
            _ => {
                let first = self.random.index(DOMAINS);
                vec![first, (first + 1) % DOMAINS]
            }
        };
    }
}
