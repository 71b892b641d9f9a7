//! The monitor: the state, the store and the calls, which stand in files by
//! what they are about.
//!
//! The store's length is fixed and the calls keep the state sound, so the
//! answers 2 and 3 cannot occur here.

mod access;
mod accounts;
mod boot;
mod call;
mod judge;
mod modes;
mod objects;
mod passwords;
mod procedures;
mod slots;
mod sound;
mod state;

pub use accounts::in_set;
pub use boot::home_pages;
pub use call::{Call, Done, Outcome, Refusal};
pub use modes::*;
pub use state::*;

use call::{done, need};

#[derive(Clone, Debug, PartialEq, Eq)]
pub struct Monitor {
    pub objects: Vec<Object>,
    pub domains: [Domain; DOMAINS],
    /// The most pages that each account may be charged.
    pub limits: [u64; ACCOUNTS],
    /// The accounts that each domain may charge, bit a for account a.
    pub sets: [u64; DOMAINS],
    pub store: Vec<u64>,
}

impl Default for Monitor {
    fn default() -> Self {
        Self::new()
    }
}

impl Monitor {
    /// Before the first BT: no objects, no slots, limits of 0 and empty sets, a
    /// store of zeros.
    pub fn new() -> Self {
        Monitor {
            objects: Vec::new(),
            domains: Default::default(),
            limits: [0; ACCOUNTS],
            sets: [0; DOMAINS],
            store: vec![0; WORDS as usize],
        }
    }

    pub fn word(&self, address: u64) -> u64 {
        self.store[address as usize]
    }

    /// The index of the object that covers the address.
    pub fn index_at(&self, address: u64) -> Option<usize> {
        let page = address / PAGE_WORDS;
        self.objects.iter().position(|o| o.run().contains(&page))
    }

    /// The index of the object with that base.
    pub fn index_of_base(&self, base: u64) -> Option<usize> {
        self.objects.iter().position(|o| o.base == base)
    }

    /// The objects, bases rising.
    pub fn by_base(&self) -> Vec<&Object> {
        let mut objects: Vec<&Object> = self.objects.iter().collect();
        objects.sort_by_key(|o| o.base);
        objects
    }

    /// How many objects stand in a domain's estate.
    pub fn objects_in(&self, domain: usize) -> usize {
        let own = estate(domain);
        let objects = self.objects.iter();
        objects.filter(|o| own.contains(&o.base)).count()
    }

    /// One call by one domain. A refused call changes nothing.
    pub fn call(&mut self, domain: u64, call: &Call) -> Outcome {
        need(domain < DOMAINS as u64, Refusal::Domain)?;
        self.answer(domain as usize, call)
    }

    fn answer(&mut self, d: usize, call: &Call) -> Outcome {
        match *call {
            Call::Bt {
                homes,
                limits,
                accounts,
                sets,
            } => self.boot(homes, limits, accounts, sets),
            Call::Rd { address } => self.read(d, address),
            Call::Wr { address, value } => self.write(d, address, value),
            Call::Ex { address } => self.execute(d, address),
            Call::Lk { address, rights } => self.look(d, address, rights),
            Call::Cr {
                page,
                count,
                password,
                account,
            } => self.create(d, page, count, password, account),
            Call::Dl { base } => self.delete(d, base),
            Call::Ap {
                base,
                password,
                mode,
            } => self.add_password(d, base, password, mode),
            Call::Dp { base, password } => self.drop_password(d, base, password),
            Call::Rg {
                base,
                password,
                list,
                ref entries,
            } => self.register(d, base, password, list, entries),
            Call::In { slot, list } => self.insert(d, slot, list),
            Call::Rm { slot } => self.remove(d, slot),
            Call::Gt => self.get(d),
            Call::Lo { slot } => self.lock(d, slot),
            Call::Ca { address, choice } => self.enter(d, address, choice),
            Call::Rt => self.leave(d),
        }
    }
}
