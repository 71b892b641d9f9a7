//! A call of the second implementation as a method of the Rust client.

use refmonitor::monitor::{Call, Capability, Done, Outcome, Refusal};
use reshqobi::{Monitor, Plan, Slots};

/// The refusals of the second implementation.
const REFUSALS: [Refusal; 11] = [
    Refusal::Domain,
    Refusal::Range,
    Refusal::Locked,
    Refusal::NotGranted,
    Refusal::Entry,
    Refusal::Place,
    Refusal::Known,
    Refusal::Full,
    Refusal::Absent,
    Refusal::Account,
    Refusal::Limit,
];

fn refused(refusal: reshqobi::Refusal) -> Refusal {
    let number = refusal.number();
    let mut all = REFUSALS.into_iter();
    let found = all.find(|&r| r as u64 == number);
    found.unwrap_or_else(|| panic!("refused by {number}: {refusal}"))
}

fn list(Capability { page, password }: Capability) -> reshqobi::Capability {
    reshqobi::Capability { page, password }
}

fn fields(slots: Slots) -> Vec<u64> {
    let first = [slots.pages.len() as u64, slots.locked, slots.whole.into()];
    first.into_iter().chain(slots.pages).collect()
}

/// One call by the method for it.
pub fn answer(m: &mut Monitor, d: u64, call: &Call) -> Outcome {
    let none = |()| Done::Value(0);
    #[rustfmt::skip]
    let answer = match *call {
        Call::Bt { homes, limits, accounts, sets } => m.boot(d, Plan { homes, limits, accounts, sets }).map(none),
        Call::Rd { address } => m.read(d, address).map(Done::Value),
        Call::Wr { address, value } => m.write(d, address, value).map(none),
        Call::Ex { address } => m.execute(d, address).map(Done::Value),
        Call::Lk { address, rights } => m.lookup(d, address, rights).map(Done::Value),
        Call::Cr { page, count, password, account } => m.create(d, page, count, password, account).map(none),
        Call::Dl { base } => m.delete(d, base).map(none),
        Call::Ap { base, password, mode } => m.add_password(d, base, password, mode).map(none),
        Call::Dp { base, password } => m.drop_password(d, base, password).map(none),
        Call::Rg { base, password, list: l, entries: ref e } => m.register(d, base, password, list(l), e).map(none),
        Call::In { slot, list: l } => m.insert(d, slot, list(l)).map(none),
        Call::Rm { slot } => m.remove(d, slot).map(none),
        Call::Gt => m.get(d).map(|slots| Done::Fields(fields(slots))),
        Call::Lo { slot } => m.lock(d, slot).map(none),
        Call::Ca { address, choice } => m.call(d, address, choice).map(Done::Value),
        Call::Rt => m.return_(d).map(none),
    };
    answer.map_err(refused)
}
