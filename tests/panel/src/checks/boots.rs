//! Boots on an image that does not read, in range and out of it.

use super::{refused, same_state};
use crate::answer::expected;
use crate::slices::{Panel, Slices};
use refmonitor::image::decode;
use refmonitor::monitor::{home_pages, Call, Monitor};
use refmonitor::random::Random;
use reshqobi::{Plan, Refusal, IMAGE_BYTES, STORE_BYTES};

/// Bytes of any value.
fn junk(random: &mut Random, length: usize) -> Vec<u8> {
    (0..length).map(|_| random.word() as u8).collect()
}

/// The numbers of a boot that is done, often at their bounds.
fn in_range(random: &mut Random) -> Plan {
    let accounts = [(); 4].map(|()| random.below(4));
    let limits = [0, 1, 2, 3].map(|account| {
        let least = home_pages(&accounts, account).max(1);
        let any = least + random.below(100);
        random.pick(&[least, 128, any])
    });
    let sets = accounts.map(|home| {
        let any = random.below(16);
        1 << home | random.pick(&[0, 15, any])
    });
    Plan {
        homes: [(); 4].map(|()| random.word() | 1),
        limits,
        accounts,
        sets,
    }
}

/// The same with one number out of its range, or not fitting the others.
fn out_of_range(plan: Plan) -> Vec<Plan> {
    let mut all = Vec::new();
    let mut with = |change: &dyn Fn(&mut Plan)| {
        let mut wrong = plan;
        change(&mut wrong);
        all.push(wrong);
    };
    let more = [1 << 8, 1 << 16, 1 << 32, 1 << 63];
    for at in 0..4 {
        let (home, set) = (plan.accounts[at], plan.sets[at]);
        with(&|p| p.homes[at] = 0);
        for limit in [0, 129, u64::MAX] {
            with(&|p| p.limits[at] = limit);
        }
        for account in [4, 4 + home, u64::MAX] {
            with(&|p| p.accounts[at] = account);
        }
        for set in [0, 16, 16 + set, set & !(1 << home), u64::MAX] {
            with(&|p| p.sets[at] = set);
        }
        for more in more {
            with(&|p| p.limits[at] += more);
            with(&|p| p.accounts[at] += more);
            with(&|p| p.sets[at] += more);
        }
        with(&|p| p.limits[home as usize] = home_pages(&p.accounts, home) - 1);
    }
    all
}

fn call(plan: Plan) -> Call {
    Call::Bt {
        homes: plan.homes,
        limits: plan.limits,
        accounts: plan.accounts,
        sets: plan.sets,
    }
}

/// A refused boot leaves image and store; a done one gives the first state.
fn boot(panel: Panel, slices: &mut Slices, plan: Plan) -> Result<(), String> {
    for wrong in out_of_range(plan).into_iter().map(call) {
        refused(slices, panel, (0, &wrong), Refusal::OutOfRange.number())?;
        refused(slices, panel, (4, &wrong), Refusal::NoDomain.number())?;
    }
    let (call, mut second) = (call(plan), Monitor::new());
    refused(slices, panel, (u64::MAX, &call), Refusal::NoDomain.number())?;
    let (number, values) = expected(&second.call(3, &call));
    let got = slices.call(panel, 3, &call)?;
    if (got, number, slices.values.bytes()) != (0, 0, &values[..]) {
        return Err(format!("a boot gave {got}, {:?}", slices.values.bytes()));
    }
    same_state(slices.image.bytes(), slices.store.bytes(), &second)
}

/// Boots on so many images and stores of junk, and on images of one value.
pub fn boots(panel: Panel, seeds: u64) -> Result<(), String> {
    let mut random = Random::new(seeds);
    for i in 0..seeds {
        let image = match i {
            0..=255 => vec![i as u8; IMAGE_BYTES],
            _ => junk(&mut random, IMAGE_BYTES),
        };
        if i > 0 && decode(&image).is_some() {
            return Err("junk reads".to_string());
        }
        let mut slices = Slices::new(&image, &junk(&mut random, STORE_BYTES));
        boot(panel, &mut slices, in_range(&mut random))?;
    }
    Ok(())
}
