//! What is measured: the two loads, and lines of a single kind.

use refmonitor::coverage::letters_of;
use refmonitor::generate::Line;
use refmonitor::growth::{self, STAGES};
use refmonitor::lines::{self, LETTERS};
use refmonitor::monitor::{NOT, PAGE_WORDS, R};
use refmonitor::short_list;
use refmonitor::workload::{self, MIXED, WORKLOAD};
use std::io;

pub struct Load {
    pub name: &'static str,
    pub lines: u64,
    pub input: Vec<u8>,
}

/// The workload with so many lines, and the mixed load with half as many.
pub fn loads(lines: u64) -> io::Result<Vec<Load>> {
    let mut loads = Vec::new();
    for (name, shares, lines) in [("workload", WORKLOAD, lines), ("mixed", MIXED, lines / 2)] {
        let mut input = Vec::new();
        workload::write(&shares, lines, &mut input)?;
        loads.push(Load { name, lines, input });
    }
    Ok(loads)
}

impl Load {
    /// Its lines, the calls by letters, and how many are done.
    pub fn mix(&self) -> String {
        let output = lines::run_bytes(&self.input);
        let answers = output.split(|&b| b == b'\n').skip(1);
        let done = answers.filter(|line| line.split(|&b| b == b',').nth(1) == Some(b"0"));
        let share = |n: usize| format!("{:.1}%", 100.0 * n as f64 / self.lines as f64);
        let mut parts = vec![format!("{}: {} lines", self.name, self.lines)];
        parts.push(format!("{} answered 0", share(done.count())));
        for (letters, _) in LETTERS {
            let lines = self.input.split(|&b| b == b'\n');
            let count = lines.filter(|line| letters_of(line) == letters).count();
            if count as u64 > self.lines / 2000 {
                parts.push(format!("{letters} {}", share(count)));
            }
        }
        let pairs = workload::PAIRS.map(|n| n.to_string()).join(", ");
        parts.push(format!("Clists of {pairs} pairs"));
        parts.join(", ")
    }
}

/// Lines that are measured by themselves, each kind with its name, and the
/// stage before them.
pub struct Kinds {
    pub stage: Vec<Line>,
    pub kinds: Vec<(&'static str, Vec<Line>)>,
}

/// All kinds of lines: those behind the stage of the loads, one with a denying
/// password added, and those behind a stage with a short Clist.
pub fn kinds() -> [Kinds; 3] {
    [
        Kinds {
            stage: workload::stage(),
            kinds: behind_the_loads_stage(),
        },
        with_a_denying_password(),
        Kinds {
            stage: short_list::stage(),
            kinds: with_a_short_list(),
        },
    ]
}

fn behind_the_loads_stage() -> Vec<(&'static str, Vec<Line>)> {
    let line = |d: u64, letters, args: &[u64]| vec![Line::new(d, letters, args)];
    let data = workload::data_word;
    let call = Line::new(3, "CA", &[workload::entry(3), 0]);
    let insert = Line::new(3, "IN", &[1, 96, 14]);
    let add = Line::new(3, "AP", &[96, 777, 1]);
    let [dead, password] = workload::dead(3);
    let create = Line::new(3, "CR", &[dead, 1, password, 0]);
    vec![
        ("an empty line, refused by 1", Vec::new()),
        ("RD by domain 4, refused by 4", line(4, "RD", &[0])),
        ("RD of no object, refused by 7", line(3, "RD", &[8191])),
        ("RD granted by the first pair", line(3, "RD", &[6144])),
        (
            "RD granted among 10 pairs, behind the home's",
            line(0, "RD", &[data(0)]),
        ),
        (
            "RD granted among 60 pairs, behind the home's",
            line(3, "RD", &[data(3)]),
        ),
        ("WR granted among 60 pairs", line(3, "WR", &[data(3), 5])),
        ("LK granted among 60 pairs", line(3, "LK", &[data(3), 15])),
        ("GT", line(3, "GT", &[])),
        (
            "CA among 60 pairs, merging, and RT",
            vec![call, Line::new(3, "RT", &[])],
        ),
        ("IN and RM", vec![insert, Line::new(3, "RM", &[1])]),
        ("AP and DP", vec![add, Line::new(3, "DP", &[96, 777])]),
        ("CR and DL", vec![create, Line::new(3, "DL", &[dead])]),
        ("BT", vec![Line::boot(0, [11, 12, 13, 14])]),
    ]
}

/// The object gets a password that denies R, and stands in no list.
fn with_a_denying_password() -> Kinds {
    let word = workload::data_word(3);
    let mut stage = workload::stage();
    let args = [word / PAGE_WORDS, 777, NOT | R];
    stage.push(Line::new(3, "AP", &args));
    Kinds {
        stage,
        kinds: vec![(
            "RD granted among 60 pairs, a denying password in no live list",
            vec![Line::new(3, "RD", &[word])],
        )],
    }
}

fn with_a_short_list() -> Vec<(&'static str, Vec<Line>)> {
    let (alone, behind) = (short_list::ALONE, short_list::BEHIND);
    vec![
        (
            "RD granted by the first of 10 pairs in a page, alone",
            vec![alone.granted_first()],
        ),
        (
            "RD granted by the last of 10 pairs in a page, alone",
            vec![alone.granted_last()],
        ),
        (
            "RD granted by none of 10 pairs in a page, alone",
            vec![alone.refused()],
        ),
        (
            "RD granted by the first of 10 pairs in a page, behind the home's",
            vec![behind.granted_first()],
        ),
        (
            "RD granted by the last of 10 pairs in a page, behind the home's",
            vec![behind.granted_last()],
        ),
        (
            "RD granted by none of 10 pairs in a page, behind the home's",
            vec![behind.refused()],
        ),
    ]
}

/// The reads whose cost may grow with the pairs in force.
pub const FIRST: &str = "granted by the first pair, of an object without a denying password";
const LAST: &str = "granted by the last pair, of an object without a denying password";
const WALKED: &str =
    "granted by the first pair, of an object with a denying password in no live list";
const NONE: &str = "granted by none, refused by 7";
pub const READS: [&str; 4] = [FIRST, LAST, WALKED, NONE];

/// The reads behind stages with so many pairs in force.
pub fn growth() -> Vec<(u64, Kinds)> {
    let mut stages = Vec::new();
    for size in &STAGES {
        let mut stage = size.lines();
        let kinds = vec![
            (FIRST, vec![growth::granted_first()]),
            (LAST, vec![growth::granted_last()]),
            (NONE, vec![growth::refused()]),
        ];
        let plain = Kinds {
            stage: stage.clone(),
            kinds,
        };
        stage.push(growth::denying());
        let kinds = vec![(WALKED, vec![growth::granted_first()])];
        stages.push((size.pairs(), plain));
        stages.push((size.pairs(), Kinds { stage, kinds }));
    }
    stages
}

/// The stage, then so many lines, the given ones over and over.
pub fn repeated(stage: &[Line], lines: &[Line], count: u64) -> Vec<u8> {
    let mut input = Vec::new();
    for line in stage {
        input.extend(line.bytes());
        input.push(b'\n');
    }
    for i in 0..count as usize {
        if !lines.is_empty() {
            input.extend(lines[i % lines.len()].bytes());
        }
        input.push(b'\n');
    }
    input
}

#[test]
fn the_denying_password_is_added_and_the_read_granted() {
    let Kinds { stage, kinds } = with_a_denying_password();
    let output = lines::run_bytes(&repeated(&stage, &kinds[0].1, 1));
    let output = String::from_utf8(output).unwrap();
    let answers: Vec<&str> = output.lines().skip(1).collect();
    assert_eq!(answers.len(), stage.len() + 1);
    assert!(answers.iter().all(|answer| answer.ends_with(",0,0")));
}
