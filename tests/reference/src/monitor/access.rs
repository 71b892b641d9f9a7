//! Accesses to words: RD, WR, EX and LK.

use super::*;

impl Monitor {
    pub(super) fn read(&mut self, d: usize, address: u64) -> Outcome {
        need(address < WORDS, Refusal::Range)?;
        self.judge_at(d, address, R)?;
        Ok(Done::Value(self.word(address)))
    }

    pub(super) fn write(&mut self, d: usize, address: u64, value: u64) -> Outcome {
        need(address < WORDS, Refusal::Range)?;
        self.judge_at(d, address, W)?;
        self.store[address as usize] = value;
        done()
    }

    pub(super) fn execute(&mut self, d: usize, address: u64) -> Outcome {
        need(address < WORDS, Refusal::Range)?;
        self.judge_at(d, address, X)?;
        Ok(Done::Value(address))
    }

    pub(super) fn look(&mut self, d: usize, address: u64, rights: u64) -> Outcome {
        need(
            address < WORDS && (1..=ALL_RIGHTS).contains(&rights),
            Refusal::Range,
        )?;
        let (_, pair) = self.judge_at(d, address, rights)?;
        Ok(Done::Value(pair))
    }
}
