//! The stages with more and more pairs in force: how many there are, and which
//! pair grants the reads.

use refmonitor::generate::Line;
use refmonitor::growth::*;
use refmonitor::lines::calls;
use refmonitor::monitor::*;

/// The lines as an input.
fn input(lines: &[Line]) -> Vec<u8> {
    let lines = lines.iter().map(|line| [line.bytes(), b"\n".to_vec()]);
    lines.flatten().flatten().collect()
}

/// The state behind lines that are all done.
fn behind(lines: &[Line]) -> Monitor {
    let mut monitor = Monitor::new();
    for (domain, call) in calls(&input(lines)) {
        assert!(monitor.call(domain, &call).is_ok());
    }
    monitor
}

/// The addresses of the domain's pairs in force, slot by slot.
fn in_force(monitor: &Monitor) -> Vec<Vec<u64>> {
    let slots = monitor.domains[DOMAIN as usize].now.slots.iter();
    let lists = slots.map(|&slot| monitor.clist(slot).expect("a live slot"));
    let pairs = lists.map(|list| monitor.list_pairs(list).collect());
    pairs.collect()
}

/// What a read gives, and what LK gives for R at its address: the pair that
/// grants.
fn read_and_looked_up(monitor: &Monitor, line: &Line) -> [Outcome; 2] {
    let mut copy = monitor.clone();
    let look = Line::new(line.domain, "LK", &[line.args[0], R]);
    [line, &look].map(|line| {
        let (domain, call) = calls(&input(std::slice::from_ref(line))).remove(0);
        copy.call(domain, &call)
    })
}

fn granted_by(pair: u64) -> [Outcome; 2] {
    [Ok(Done::Value(0)), Ok(Done::Value(pair))]
}

const REFUSED: [Outcome; 2] = [Err(Refusal::NotGranted), Err(Refusal::NotGranted)];

#[test]
fn the_pairs_in_force_are_as_many_as_stated() {
    let mut counts = Vec::new();
    for stage in &STAGES {
        let pairs = in_force(&behind(&stage.lines()));
        assert_eq!(pairs[0], [HOME * PAGE_WORDS]);
        assert_eq!(pairs.len() as u64, 2 + stage.between);
        counts.push(pairs.concat().len() as u64);
        assert_eq!(counts.last(), Some(&stage.pairs()));
    }
    assert_eq!(counts, [2, 65, 500, 900, 7169]);
    // Seven later slots can hold no more.
    assert_eq!(7169, 1 + 7 * LIST_PAIRS);
}

#[test]
fn the_reads_are_granted_by_the_pairs_meant() {
    for stage in &STAGES {
        let monitor = behind(&stage.lines());
        let first = HOME * PAGE_WORDS;
        let last = LAST_LIST * PAGE_WORDS + 2 * (stage.last - 1);
        assert_eq!(in_force(&monitor).concat().last(), Some(&last));
        let judged = |line: Line| read_and_looked_up(&monitor, &line);
        assert_eq!(judged(granted_first()), granted_by(first));
        assert_eq!(judged(granted_last()), granted_by(last));
        assert_eq!(judged(refused()), REFUSED);
        assert!(!monitor.objects.iter().any(|o| o.can_deny(ALL_RIGHTS)));
    }
}

/// The denying password changes no answer as long as no pair has it; in the
/// very last pair it does.
#[test]
fn the_denying_password_stands_in_no_list() {
    for stage in &STAGES {
        let mut lines = stage.lines();
        lines.push(denying());
        let mut monitor = behind(&lines);
        let judged = |monitor: &Monitor| read_and_looked_up(monitor, &granted_first());
        let home = &monitor.objects[monitor.index_of_base(HOME).unwrap()];
        assert!(home.can_deny(R) && !home.can_deny(W));
        assert_eq!(judged(&monitor), granted_by(HOME * PAGE_WORDS));
        let last = *in_force(&monitor).concat().last().unwrap() as usize;
        monitor.store[last] = HOME * 256;
        monitor.store[last + 1] = denying().args[1];
        assert_eq!(judged(&monitor), REFUSED);
    }
}

/// The lines that are counted have numbers of four digits, and an input is one
/// piece of 64 KiB.
#[test]
fn the_counted_lines_differ_in_nothing_else() {
    for stage in &STAGES {
        let mut lines = stage.lines();
        lines.push(denying());
        assert!(lines.len() >= 1000);
        lines.extend((0..LINES).map(|_| granted_last()));
        assert!(lines.len() < 10_000);
        assert!(input(&lines).len() <= 65_536);
    }
}
