//! Ways of calling with one fault each: the check for it must find it.

mod accounts;
mod images;
mod lengths;
mod order;
mod states;
mod values;

use panel::checks::{boots, charges, flipped, lengths, play, play_displaced, unreadable};
use panel::stage::stage;
use panel::{real, Panel, Slices};
use refmonitor::monitor::Call;
use refmonitor::{cases, inputs};
use std::ptr::fn_addr_eq;

type Check = fn(Panel) -> Result<(), String>;
type Broken = fn(&mut Slices, u64, &Call) -> u64;

/// A name, the check that must find the fault, and the way of calling.
type Fault = (&'static str, Check, Broken);

fn played(panel: Panel) -> Result<(), String> {
    play(panel, &inputs::input(7, 2_000)).map(drop)
}

fn played_in_other_places(panel: Panel) -> Result<(), String> {
    play_displaced(panel, &inputs::input(7, 2_000), 7).map(drop)
}

fn written_cases(panel: Panel) -> Result<(), String> {
    let mut cases = cases::all().into_iter();
    cases.try_for_each(|case| play(panel, &case.input).map(drop))
}

fn wrong_lengths(panel: Panel) -> Result<(), String> {
    lengths(panel).map(drop)
}

fn changed_bytes(panel: Panel) -> Result<(), String> {
    flipped(panel, &Slices::of(&stage()), &stage().store).map(drop)
}

fn booted(panel: Panel) -> Result<(), String> {
    boots(panel, 5)
}

fn charged(panel: Panel) -> Result<(), String> {
    charges(panel).map(drop)
}

/// The call, and then something more on an answer of one sort.
fn and(slices: &mut Slices, domain: u64, call: &Call, more: fn(u64, &Call, &mut Slices)) -> u64 {
    let answer = real(slices, domain, call);
    more(answer, call, slices);
    answer
}

/// The call, with image or store as they were.
fn but(slices: &mut Slices, domain: u64, call: &Call, image: bool, store: bool) -> u64 {
    let before = slices.clone();
    let answer = real(slices, domain, call);
    if image {
        slices.image = before.image;
    }
    if store {
        slices.store = before.store;
    }
    answer
}

fn boot(call: &Call) -> bool {
    matches!(call, Call::Bt { .. })
}

/// Each fault is found; without one, the check finds nothing.
fn each_is_found(all: &[Fault]) {
    let mut passed: Vec<Check> = Vec::new();
    for (name, check, broken) in all {
        if !passed.iter().any(|&other| fn_addr_eq(other, *check)) {
            assert_eq!(check(&real), Ok(()), "without the fault: {name}");
            passed.push(*check);
        }
        assert!(check(broken).is_err(), "not found: {name}");
    }
}

#[test]
fn faults_in_values() {
    each_is_found(&values::FAULTS);
}

#[test]
fn faults_in_states() {
    each_is_found(&states::FAULTS);
}

#[test]
fn faults_with_lengths() {
    each_is_found(&lengths::FAULTS);
}

#[test]
fn faults_with_images() {
    each_is_found(&images::FAULTS);
}

#[test]
fn faults_in_the_order_written() {
    each_is_found(&order::WRITING);
}

#[test]
fn faults_in_the_order_read() {
    each_is_found(&order::READING);
}

#[test]
fn faults_with_reading_accounts() {
    each_is_found(&accounts::READING);
}

#[test]
fn faults_with_charging_accounts() {
    each_is_found(&accounts::CREATING);
}

#[test]
fn faults_with_booting_accounts() {
    each_is_found(&accounts::BOOTING);
}
