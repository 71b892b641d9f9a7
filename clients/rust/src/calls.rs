//! The sixteen calls, each by a domain, 0 to 3. Of several refusals the first
//! in the order of include/reshqobi.h is given.

use crate::values::Values;
use crate::{sys, Capability, Monitor, Plan, Refusal, Slots};
use crate::{IMAGE_BYTES, STORE_BYTES, VALUES_BYTES};

/// Calls a C function on the monitor's bytes.
macro_rules! call {
    ($monitor:ident, $function:ident, $($argument:expr),*) => {{
        let (image, store) = (&mut $monitor.image, &mut $monitor.store);
        let mut values = [0; VALUES_BYTES];
        // SAFETY: three slices of different owners, each with its own length.
        let answer = unsafe {
            sys::$function(
                image.as_mut_ptr(),
                IMAGE_BYTES,
                store.as_mut_ptr(),
                STORE_BYTES,
                values.as_mut_ptr(),
                VALUES_BYTES,
                $($argument),*
            )
        };
        Values::of(answer, &values)
    }};
}

type Answer<T> = Result<T, Refusal>;

impl Monitor {
    /// BT: zeroes the store and starts anew, by a plan.
    #[rustfmt::skip]
    pub fn boot(&mut self, domain: u64, plan: Plan) -> Answer<()> {
        let Plan { homes: h, limits: l, accounts: a, sets: s } = plan;
        call!(
            self, reshqobi_bt, domain,
            h[0], h[1], h[2], h[3],
            l[0], l[1], l[2], l[3],
            a[0], s[0], a[1], s[1], a[2], s[2], a[3], s[3]
        )
        .map(drop)
    }

    /// RD, Mungi's read access: the word at an address.
    pub fn read(&mut self, domain: u64, address: u64) -> Answer<u64> {
        call!(self, reshqobi_rd, domain, address).map(|v| v.first())
    }

    /// WR, Mungi's write access: stores a word at an address.
    pub fn write(&mut self, domain: u64, address: u64, word: u64) -> Answer<()> {
        call!(self, reshqobi_wr, domain, address, word).map(drop)
    }

    /// EX, Mungi's execute access: gives the address.
    pub fn execute(&mut self, domain: u64, address: u64) -> Answer<u64> {
        call!(self, reshqobi_ex, domain, address).map(|v| v.first())
    }

    /// LK, Mungi's ApdLookup: the address of the pair that grants the rights,
    /// 1 to 31.
    pub fn lookup(&mut self, domain: u64, address: u64, rights: u64) -> Answer<u64> {
        call!(self, reshqobi_lk, domain, address, rights).map(|v| v.first())
    }

    /// CR, Mungi's ObjCreate: a new object of 1 to 32 pages, its words zeroed,
    /// with its owner's password, charged to an account, 0 to 3.
    pub fn create(
        &mut self,
        domain: u64,
        page: u64,
        pages: u64,
        password: u64,
        account: u64,
    ) -> Answer<()> {
        call!(self, reshqobi_cr, domain, page, pages, password, account).map(drop)
    }

    /// DL, Mungi's ObjDelete: removes the object; its words stay, and its
    /// account has its pages back.
    pub fn delete(&mut self, domain: u64, base: u64) -> Answer<()> {
        call!(self, reshqobi_dl, domain, base).map(drop)
    }

    /// AP, Mungi's ObjPasswd with a mode: adds a password to an object.
    pub fn add_password(&mut self, domain: u64, base: u64, password: u64, mode: u64) -> Answer<()> {
        call!(self, reshqobi_ap, domain, base, password, mode).map(drop)
    }

    /// DP, Mungi's ObjPasswd with no mode: drops a password of an object, or
    /// the registration that has it.
    pub fn drop_password(&mut self, domain: u64, base: u64, password: u64) -> Answer<()> {
        call!(self, reshqobi_dp, domain, base, password).map(drop)
    }

    /// RG, Mungi's ObjCrePdx: registers an object as a procedure with a
    /// password, a Clist and 1 to 4 entries.
    pub fn register(
        &mut self,
        domain: u64,
        base: u64,
        password: u64,
        list: Capability,
        entries: &[u64],
    ) -> Answer<()> {
        let entry = |k: usize| entries.get(k).copied().unwrap_or(0);
        call!(
            self,
            reshqobi_rg,
            domain,
            base,
            password,
            list.page,
            list.password,
            entries.len() as u64,
            entry(0),
            entry(1),
            entry(2),
            entry(3)
        )
        .map(drop)
    }

    /// IN, Mungi's ApdInsert: puts a Clist capability in as slot 0 to 7; later
    /// slots move down.
    pub fn insert(&mut self, domain: u64, slot: u64, list: Capability) -> Answer<()> {
        call!(self, reshqobi_in, domain, slot, list.page, list.password).map(drop)
    }

    /// RM, Mungi's ApdDelete: takes a slot out; later slots move up.
    pub fn remove(&mut self, domain: u64, slot: u64) -> Answer<()> {
        call!(self, reshqobi_rm, domain, slot).map(drop)
    }

    /// GT, Mungi's ApdGet: the caller's slots and locks.
    pub fn get(&mut self, domain: u64) -> Answer<Slots> {
        call!(self, reshqobi_gt, domain).map(|v| v.slots())
    }

    /// LO, Mungi's ApdLock: locks a slot and all before it, or the whole domain
    /// with [`WHOLE_LOCK`](crate::WHOLE_LOCK).
    pub fn lock(&mut self, domain: u64, slot: u64) -> Answer<()> {
        call!(self, reshqobi_lo, domain, slot).map(drop)
    }

    /// CA, Mungi's PdxCall: enters a procedure; its Clist is merged in with the
    /// choice 0 and stands alone with 1. Gives the entry.
    pub fn call(&mut self, domain: u64, entry: u64, choice: u64) -> Answer<u64> {
        call!(self, reshqobi_ca, domain, entry, choice).map(|v| v.first())
    }

    /// RT, the return of Mungi's PdxCall: the domain saved last comes back.
    pub fn return_(&mut self, domain: u64) -> Answer<()> {
        call!(self, reshqobi_rt, domain).map(drop)
    }
}
