//! Every call with each number at its bounds.

use super::{Sweep, TOP};
use crate::generate::{edges, kind, Line};

/// Good calls, each argument of which is put at its bounds.
const GOOD: [(&str, &[u64]); 16] = [
    (
        "BT",
        &[1, 2, 3, 4, 128, 128, 128, 128, 0, 15, 0, 15, 0, 15, 0, 15],
    ),
    ("RD", &[64]),
    ("WR", &[64, 5]),
    ("EX", &[64]),
    ("LK", &[64, 3]),
    ("CR", &[3, 2, 5, 0]),
    ("DL", &[1]),
    ("AP", &[1, 5, 1]),
    ("DP", &[1, 21]),
    ("RG", &[1, 5, 0, 11, 64, 127, 128, 191]),
    ("IN", &[1, 32, 12]),
    ("RM", &[0]),
    ("GT", &[]),
    ("LO", &[0]),
    ("CA", &[63, 0]),
    ("RT", &[]),
];

impl Sweep {
    /// Good calls with one number at each of its bounds.
    pub(super) fn bounds(&mut self) {
        for (letters, args) in GOOD {
            for domain in [0, 1, 2, 3, 4, 5, 255, 256, TOP] {
                self.in_a_call(&Line::new(domain, letters, args));
            }
            for i in 0..args.len() {
                for &edge in edges(kind(letters, i)) {
                    let mut line = Line::new(0, letters, args);
                    line.args[i] = edge;
                    self.in_a_call(&line);
                }
            }
        }
    }

    /// The line inside a call of a procedure, and what is to be seen after it.
    fn in_a_call(&mut self, line: &Line) {
        self.stage();
        self.add("0,RG,0,31,32,12,0,63");
        self.add("0,WR,4,0");
        self.add("0,WR,5,31");
        self.add("0,CA,0,0");
        self.add(line.fields().join(","));
        self.add("0,GT");
        self.add("0,RD,64");
    }
}
