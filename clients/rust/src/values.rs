//! What comes back in the values.

use crate::{Refusal, DONE, VALUES, VALUES_BYTES};

/// What `get` gives: the page of each slot, how many slots are locked, and
/// whether the whole lock is set.
#[derive(Clone, Debug, PartialEq, Eq)]
pub struct Slots {
    pub pages: Vec<u64>,
    pub locked: u64,
    pub whole: bool,
}

/// The values of a done call.
pub(crate) struct Values([u64; VALUES]);

impl Values {
    /// The values of a done call, or the refusal with that answer number.
    pub fn of(answer: u64, bytes: &[u8; VALUES_BYTES]) -> Result<Self, Refusal> {
        if answer != DONE {
            let refusal = Refusal::of(answer);
            return Err(refusal.unwrap_or_else(|| panic!("no answer has the number {answer}")));
        }
        let mut words = [0; VALUES];
        for (word, bytes) in words.iter_mut().zip(bytes.chunks_exact(8)) {
            *word = u64::from_le_bytes(bytes.try_into().expect("8 bytes"));
        }
        Ok(Values(words))
    }

    /// The one value of a call.
    pub fn first(&self) -> u64 {
        self.0[0]
    }

    /// GT's fields.
    pub fn slots(&self) -> Slots {
        let [count, locked, whole, pages @ ..] = &self.0;
        Slots {
            pages: pages[..*count as usize].to_vec(),
            locked: *locked,
            whole: *whole == 1,
        }
    }
}
