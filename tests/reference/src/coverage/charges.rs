//! What earlier calls did to the accounts: the last deletion on each, and the
//! last boot that was refused.

use crate::monitor::*;

/// A deletion, as the account sees it.
#[derive(Clone, Copy)]
pub struct Deletion {
    /// The charged pages ahead of it.
    pub charged: u64,
    /// Who deleted, and in whose estate.
    pub by: usize,
    pub estate: usize,
    /// Whether the one who deleted may charge the account.
    pub permitted: bool,
}

/// Since the last boot that was done.
#[derive(Default)]
pub struct Charges {
    deleted: [Option<Deletion>; ACCOUNTS],
    refused: Option<([u64; ACCOUNTS], [u64; DOMAINS])>,
}

impl Charges {
    /// The last deletion on the account.
    pub fn deleted(&self, account: u64) -> Option<Deletion> {
        self.deleted.get(account as usize).copied().flatten()
    }

    /// The limits and sets of the last refused boot.
    pub fn refused(&self) -> Option<([u64; ACCOUNTS], [u64; DOMAINS])> {
        self.refused
    }

    /// Note what a call of a domain did, done or not.
    pub fn note(&mut self, before: &Monitor, domain: u64, call: &Call, done: bool) {
        match *call {
            Call::Bt { .. } if done => *self = Charges::default(),
            Call::Bt { limits, sets, .. } => self.refused = Some((limits, sets)),
            Call::Dl { base } if done => self.note_deletion(before, domain as usize, base),
            _ => {}
        }
    }

    fn note_deletion(&mut self, before: &Monitor, by: usize, base: u64) {
        let Some(index) = before.index_of_base(base) else {
            return;
        };
        let account = before.objects[index].account;
        self.deleted[account as usize] = Some(Deletion {
            charged: before.charged(account),
            by,
            estate: (base / ESTATE_PAGES) as usize,
            permitted: before.permits(by, account),
        });
    }
}
