//! The loads of the benchmark: their shares, what is granted, and the Clists
//! that are searched; and the stage with a short Clist.

use refmonitor::coverage::letters_of;
use refmonitor::generate::Line;
use refmonitor::lines::{calls, run_bytes, LETTERS};
use refmonitor::monitor::*;
use refmonitor::short_list;
use refmonitor::workload::{self, Shares, MIXED, WORKLOAD};
use std::collections::BTreeMap;

const LINES: u64 = 50_000;

fn load(shares: &Shares) -> Vec<u8> {
    let mut input = Vec::new();
    workload::write(shares, LINES, &mut input).unwrap();
    input
}

/// The lines behind the stage by letters, in percent.
fn percent(input: &[u8]) -> BTreeMap<&'static str, f64> {
    let stage = workload::stage().len();
    let lines: Vec<&[u8]> = input.split(|&b| b == b'\n').skip(stage).collect();
    let share = |letters: &'static str| {
        let count = lines.iter().filter(|l| letters_of(l) == letters).count();
        (letters, 100.0 * count as f64 / lines.len() as f64)
    };
    LETTERS.map(|(letters, _)| share(letters)).into()
}

fn about(share: f64, stated: f64) {
    assert!((share - stated).abs() < 1.0, "{share}% and not {stated}%");
}

#[test]
fn the_workload_has_its_shares() {
    let part = percent(&load(&WORKLOAD));
    about(part["RD"], 33.0);
    about(part["WR"], 25.0);
    about(part["LK"], 20.0);
    about(part["CA"] + part["RT"], 22.0);
}

#[test]
fn the_mixed_load_has_its_shares() {
    let part = percent(&load(&MIXED));
    about(part["RD"], 36.0);
    about(part["WR"], 26.0);
    about(part["LK"], 23.0);
    about(part["CA"] + part["RT"], 10.0);
    about(part["EX"], 4.0);
    for letters in ["CR", "DL", "AP", "DP", "IN", "RM", "GT"] {
        assert!(part[letters] > 0.1, "{letters} {}%", part[letters]);
    }
}

/// Only the reads that are meant to be refused are: those of no object's page
/// or another domain's.
#[test]
fn all_but_some_reads_are_granted() {
    for shares in [WORKLOAD, MIXED] {
        let input = load(&shares);
        let output = run_bytes(&input);
        let answers = output.split(|&b| b == b'\n').skip(1);
        let mut refused = 0;
        for (line, answer) in input.split(|&b| b == b'\n').zip(answers) {
            if !line.is_empty() && answer.split(|&b| b == b',').nth(1) != Some(b"0") {
                assert_eq!(letters_of(line), "RD");
                refused += 1;
            }
        }
        about(100.0 * f64::from(refused) / LINES as f64, 3.0);
    }
}

#[test]
fn the_stage_is_granted() {
    let output = String::from_utf8(run_bytes(&load(&WORKLOAD))).unwrap();
    assert_eq!(output.lines().count() as u64, LINES + 1);
    let mut staged = output.lines().skip(1).take(workload::stage().len());
    assert!(staged.all(|l| l.ends_with(",0,0")));
}

/// The address and rights that a call wants.
fn wanted(call: &Call) -> Option<(u64, u64)> {
    match *call {
        Call::Rd { address } => Some((address, R)),
        Call::Wr { address, .. } => Some((address, W)),
        Call::Lk { address, rights } => Some((address, rights)),
        Call::Ca { address, .. } => Some((address, P)),
        _ => None,
    }
}

/// How many pairs the Clist that grants has, if one does.
fn pair_count(monitor: &Monitor, domain: u64, (address, rights): (u64, u64)) -> Option<usize> {
    let object = &monitor.objects[monitor.index_at(address)?];
    let pair = monitor.granting_pair(domain as usize, object, rights)?;
    let list = &monitor.objects[monitor.index_at(pair)?];
    Some(monitor.list_pairs(list).count())
}

/// The workload's granted accesses are found in Clists of 10 to 60 pairs.
#[test]
fn the_workload_searches_clists_of_10_to_60_pairs() {
    let stage = workload::stage().len();
    let mut monitor = Monitor::new();
    let (mut judged, mut counts) = (0, BTreeMap::new());
    for (i, (domain, call)) in calls(&load(&WORKLOAD)).into_iter().enumerate() {
        if let (Some(wanted), true) = (wanted(&call), i >= stage) {
            judged += 1;
            if let Some(pairs) = pair_count(&monitor, domain, wanted) {
                *counts.entry(pairs).or_insert(0) += 1;
            }
        }
        drop(monitor.call(domain, &call));
    }
    assert_eq!(counts.keys().copied().collect::<Vec<_>>(), [10, 25, 40, 60]);
    assert!(counts.values().all(|&n| n > 7500), "{counts:?}");
    assert!(counts.values().sum::<i32>() * 100 > judged * 95);
}

/// The lines as an input.
fn input(lines: &[Line]) -> Vec<u8> {
    let lines = lines.iter().map(|line| [line.bytes(), b"\n".to_vec()]);
    lines.flatten().flatten().collect()
}

/// Of the stages' Clists all pairs stand ahead of the end, so that they are
/// searched alike with an end and without.
#[test]
fn nothing_stands_behind_the_ends() {
    for stage in [workload::stage(), short_list::stage()] {
        let mut monitor = Monitor::new();
        for (domain, call) in calls(&input(&stage)) {
            assert!(monitor.call(domain, &call).is_ok());
        }
        let slots = monitor.domains.iter().flat_map(|d| &d.now.slots);
        for list in slots.map(|&slot| monitor.clist(slot).unwrap()) {
            let end = monitor.list_pairs(list).last().unwrap() + 2;
            assert!((end..list.words().end).all(|at| monitor.word(at) == 0));
        }
    }
}

/// What the reads behind the short Clists' stage are for.
#[test]
fn the_short_lists_grant_first_and_last() {
    let mut monitor = Monitor::new();
    for (domain, call) in calls(&input(&short_list::stage())) {
        assert!(monitor.call(domain, &call).is_ok());
    }
    let granting = |line: Line| {
        let (domain, call) = calls(&input(&[line])).remove(0);
        let (address, rights) = wanted(&call).unwrap();
        let object = &monitor.objects[monitor.index_at(address).unwrap()];
        monitor.granting_pair(domain as usize, object, rights)
    };
    for (list, slots) in [(short_list::ALONE, 1), (short_list::BEHIND, 2)] {
        let start = list.page * PAGE_WORDS;
        assert_eq!(granting(list.granted_first()), Some(start));
        assert_eq!(granting(list.granted_last()), Some(start + 18));
        assert_eq!(granting(list.refused()), None);
        let object = &monitor.objects[monitor.index_at(start).unwrap()];
        assert_eq!(monitor.list_pairs(object).count() as u64, short_list::PAIRS);
        assert_eq!(object.pages, 1);
        let now = &monitor.domains[list.domain as usize].now;
        assert_eq!(now.slots.len(), slots);
        assert_eq!(now.slots[slots - 1].page, list.page);
    }
}
