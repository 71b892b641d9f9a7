//! Pages, counts, addresses, slots and choices.

use super::{Sweep, TOP};

impl Sweep {
    pub(super) fn pages(&mut self) {
        for page in (0..=130).chain([255, 256, 257, 1 << 32, TOP]) {
            for d in 0..=4 {
                self.add(format!("{d},CR,{page},1,5,0"));
                self.add(format!("{d},DL,{page}"));
                self.add(format!("{d},IN,1,{page},5"));
                self.add(format!("{d},AP,{page},5,1"));
                self.add(format!("{d},DP,{page},5"));
                let entry = page.wrapping_mul(64);
                self.add(format!("{d},RG,{page},5,{page},12,{entry}"));
            }
            self.stage();
        }
    }

    pub(super) fn counts(&mut self) {
        for count in 0..=40 {
            for first in [1, 2, 3, 30, 31, 32] {
                self.add(format!("0,CR,{first},{count},5,0"));
                self.add(format!("0,CR,{first},{count},5,0"));
                self.add(format!("0,WR,4,{}", first * 256));
                self.add("0,WR,5,5");
                self.add(format!("0,DL,{first}"));
            }
        }
        self.add("0,CR,1,2,21,0");
    }

    pub(super) fn addresses(&mut self) {
        for address in (0..=8200).step_by(31).chain([8191, 8192]) {
            for letters in ["RD", "EX"] {
                self.add(format!("0,{letters},{address}"));
                self.add(format!("2,{letters},{address}"));
            }
            self.add(format!("0,WR,{address},{}", address % 128 * 3));
        }
    }

    pub(super) fn slots(&mut self) {
        for slot in (0..=20).chain(250..=260).chain([1 << 32, TOP - 1, TOP]) {
            for letters in ["RM", "LO"] {
                self.boot();
                self.add("0,IN,1,32,12");
                self.add("0,IN,2,64,13");
                self.add(format!("0,{letters},{slot}"));
                self.add("0,GT");
                self.add(format!("0,IN,{slot},96,14"));
                self.add("0,GT");
            }
        }
        self.boot();
    }

    pub(super) fn choices(&mut self) {
        for choice in (0..=5).chain([255, 256, 257, TOP]) {
            self.add("0,RG,0,31,0,11,0,63");
            self.add("0,WR,2,0");
            self.add("0,WR,3,31");
            self.add(format!("0,CA,63,{choice}"));
            self.add(format!("0,CA,62,{choice}"));
            self.add("0,GT");
            self.add("0,RT");
        }
    }
}
