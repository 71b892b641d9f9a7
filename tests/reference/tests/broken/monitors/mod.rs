//! Broken monitors.

mod accounts;
mod ban_calls;
mod bans;
mod boot_accounts;
mod boots;
mod ends;
mod judge;
mod judging;
mod modes;
mod objects;
mod pages;
mod pages_back;
mod procedures;
mod shams;
mod slots;
mod traps;
mod whole_lock;

use crate::found;
use judge::{is_live, looks, true_mode, Judge, Verdict, RIGHT};
use refmonitor::compare::Ran;
use refmonitor::lines::{run_bytes, run_with};
use refmonitor::monitor::*;

/// A broken way of answering; the number is a memory of its own.
pub type Answer = fn(&mut Monitor, &mut u64, u64, &Call) -> Outcome;

/// The call program over a broken monitor.
pub fn run_broken(answer: Answer, input: &[u8]) -> Ran {
    let mut output = Vec::new();
    let mut monitor = Monitor::new();
    let mut memory = 0;
    let answering = |domain, call: &Call| answer(&mut monitor, &mut memory, domain, call);
    run_with(input, &mut output, answering).unwrap();
    Ran::well(output)
}

/// A name, and the way of answering.
type Broken = (&'static str, Answer);

/// Those that a short run shows.
fn broken() -> impl Iterator<Item = Broken> {
    let groups = [
        shams::SHAMS,
        traps::TRAPS,
        judging::JUDGING,
        modes::MODES,
        ends::ENDS,
        bans::BANS,
        ban_calls::BAN_CALLS,
        objects::OBJECTS,
        slots::SLOTS,
        whole_lock::WHOLE_LOCK,
        procedures::PROCEDURES,
        boots::BOOTS,
        boot_accounts::BOOT_ACCOUNTS,
        accounts::ACCOUNTS_BROKEN,
        pages_back::PAGES_BACK,
    ];
    groups.into_iter().flatten().copied()
}

fn now(m: &mut Monitor, domain: u64) -> &mut Frame {
    &mut m.domains[domain as usize].now
}

#[test]
fn broken_monitors_are_found() {
    for (name, answer) in broken() {
        found(name, &mut |input, _| run_broken(answer, input), 20);
    }
    for &(name, answer) in pages::PAGES_FULL {
        found(name, &mut |input, _| run_broken(answer, input), 50);
    }
}

/// The generated lines find each of them too, without the written cases and
/// the sweeps.
#[test]
fn generated_lines_find_broken_monitors() {
    for (name, answer) in broken().chain(pages::PAGES_FULL.iter().copied()) {
        let broken = |seed| {
            let input = refmonitor::inputs::input(seed, 5000);
            run_broken(answer, &input).output != run_bytes(&input)
        };
        assert!((1..=20).any(broken), "{name}");
    }
}
