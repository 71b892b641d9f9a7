//! Letters and numbers, as they are written in a line.

use super::Sweep;

/// Numbers about 2^64, and numbers written in other ways.
const NUMBERS: [&str; 18] = [
    "18446744073709551614",
    "18446744073709551615",
    "18446744073709551616",
    "18446744073709551617",
    "18446744073709551625",
    "18446744073709551620",
    "18446744073709552000",
    "19446744073709551615",
    "20000000000000000000",
    "28446744073709551615",
    "99999999999999999999",
    "100000000000000000000",
    "184467440737095516150",
    "340282366920938463463374607431768211456",
    "00",
    "01",
    "000000000000000000000000000001",
    "",
];

impl Sweep {
    /// Every two letters with every number of arguments.
    pub(super) fn letters(&mut self) {
        for first in b'A'..=b'Z' {
            for second in b'A'..=b'Z' {
                let mut line = format!("1,{}{}", first as char, second as char);
                for _ in 0..=17 {
                    self.add(&line);
                    line += ",1";
                }
            }
        }
    }

    pub(super) fn numbers(&mut self) {
        for number in NUMBERS {
            self.add(format!("0,WR,10,{number}"));
            self.add("0,RD,10");
            self.add(format!("{number},RD,10"));
            self.add(format!("0,RD,{number}"));
        }
    }
}
