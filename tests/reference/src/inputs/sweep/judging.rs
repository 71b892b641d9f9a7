//! Modes, rights, the places of pairs, and those of bans.

use super::{Sweep, TOP};
use crate::monitor::legal_mode;

impl Sweep {
    /// Every mode against every set of rights: alone, ahead of the owner's
    /// pair, and behind it.
    pub(super) fn modes(&mut self) {
        for mode in (0..=520).chain([1 << 32, TOP]) {
            self.add(format!("0,AP,1,30,{mode}"));
            if legal_mode(mode) {
                for (two, four, six) in [(30, 0, 21), (30, 21, 0), (21, 30, 0)] {
                    self.add(format!("0,WR,2,{}", 256 + mode));
                    self.add(format!("0,WR,3,{two}"));
                    self.add("0,WR,4,256");
                    self.add(format!("0,WR,5,{four}"));
                    for rights in 0..=33 {
                        self.add(format!("0,LK,191,{rights}"));
                    }
                    self.add("0,WR,6,256");
                    self.add(format!("0,WR,7,{six}"));
                    self.add("0,IN,1,1,30");
                    self.add("0,RM,1");
                }
                // An owner who is banned drops no password.
                self.add("0,WR,3,21");
                self.add("0,WR,5,0");
            }
            self.add("0,DP,1,30");
        }
    }

    /// Every place of a long Clist; the pairs before it keep their first word.
    pub(super) fn pairs(&mut self) {
        self.boot();
        self.add("0,CR,1,31,21,0");
        self.add("0,WR,2,256");
        self.add("0,WR,3,21");
        self.add("0,IN,1,1,21");
        for at in (64..2048).step_by(2) {
            self.add(format!("0,WR,{at},8192"));
            self.add(format!("0,WR,{},12", at + 1));
            self.add("0,LK,2048,1");
            self.add(format!("0,WR,{},0", at + 1));
        }
    }

    /// The long Clist, with its end at every place ahead of the pair that
    /// grants, and with pairs of one zero word there.
    pub(super) fn ends(&mut self) {
        self.add("0,WR,2047,12");
        for at in (64..2046).step_by(2) {
            self.add(format!("0,WR,{at},0"));
            self.add("0,LK,2048,1");
            self.add(format!("0,WR,{},1", at + 1));
            self.add("0,LK,2048,1");
            if at % 4 == 0 {
                self.add(format!("0,WR,{at},8192"));
                self.add(format!("0,WR,{},0", at + 1));
            }
        }
    }

    /// The long Clist, whose first pair grants, with a ban on W at every place
    /// behind it.
    pub(super) fn bans(&mut self) {
        self.add("1,AP,32,40,130");
        self.add("0,WR,64,8192");
        self.add("0,WR,65,12");
        for at in (66..2048).step_by(2) {
            self.add(format!("0,WR,{at},8192"));
            self.add(format!("0,WR,{},40", at + 1));
            self.add("0,LK,2048,1");
            self.add("0,LK,2048,2");
            self.add(format!("0,WR,{},0", at + 1));
        }
    }
}
