//! The tables, in the form in which docs/PERFORMANCE.md has them.

use crate::loads::{Load, FIRST, READS};
use refmonitor::callgrind::{copies, Count};
use refmonitor::growth::LINES;
use refmonitor::table::{table, texts, thousands};
use std::time::Duration;

/// Parts of the program: their names, and how their symbols begin.
const PARTS: [(&str, &[&str]); 7] = [
    (
        "reading",
        &["monitor::", "turns::", "stream::", "replies::", "lines::"],
    ),
    ("soundness", &["soundness::"]),
    ("judging", &["clists::", "judge::", "rights::", "state::"]),
    (
        "the calls",
        &[
            "access_calls::",
            "create_call::",
            "object_calls::",
            "domain_calls::",
            "register_call::",
            "pdx_calls::",
            "apply::",
            "calls::",
            "boot::",
            "plan::",
            "pages::",
            "updates::",
        ],
    ),
    ("copying", &["memmove", "memcpy", "__memmove", "__memcpy"]),
    ("printing", &["text::", "std_io::", "std::io::"]),
    ("the rest", &[""]),
];

/// The part of a symbol.
fn part(symbol: &str) -> usize {
    PARTS
        .iter()
        .position(|(_, starts)| starts.iter().any(|start| symbol.starts_with(start)))
        .expect("the last takes all")
}

fn share(part: u64, whole: u64) -> String {
    format!("{:.1}%", 100.0 * part as f64 / whole.max(1) as f64)
}

/// Instructions a line of both programs on each load, and what copying takes.
pub fn instructions(loads: &[Load], counts: &[Vec<Count>], stage: u64) {
    let mut rows = vec![texts(&[
        "Load",
        "Program",
        "Second implementation",
        "Ratio",
        "Copying, program",
        "Copying, second implementation",
    ])];
    for (load, both) in loads.iter().zip(counts) {
        let lines = (load.lines - stage) as f64;
        let totals = [both[0].total(), both[1].total()];
        rows.push(vec![
            load.name.to_string(),
            thousands(totals[0] as f64 / lines),
            thousands(totals[1] as f64 / lines),
            format!("{:.2}", totals[0] as f64 / totals[1] as f64),
            share(both[0].sum(copies), totals[0]),
            share(both[1].sum(copies), totals[1]),
        ]);
    }
    println!("Instructions a line, by callgrind, less the stage alone:\n");
    table(&rows);
}

/// The program's instructions by part.
pub fn parts(loads: &[Load], counts: &[Vec<Count>]) {
    let counts: Vec<&Count> = counts.iter().map(|both| &both[0]).collect();
    let names: Vec<&str> = loads.iter().map(|load| load.name).collect();
    let mut rows = vec![texts(&[&["Part"], &names[..], &["Symbols"]].concat())];
    for (i, (name, starts)) in PARTS.iter().enumerate() {
        let mut row = vec![name.to_string()];
        row.extend(counts.iter().map(|count| {
            let sum = count.sum(|symbol| part(symbol) == i);
            share(sum, count.total())
        }));
        row.push(starts.join(" "));
        rows.push(row);
    }
    println!("Where the program's instructions go:\n");
    table(&rows);
}

/// The symbols of the program that take most.
pub fn symbols(loads: &[Load], counts: &[Vec<Count>]) {
    let counts: Vec<&Count> = counts.iter().map(|both| &both[0]).collect();
    let names: Vec<&str> = loads.iter().map(|load| load.name).collect();
    let large = |symbol: &&String| {
        let mut counts = counts.iter();
        counts.any(|count| count.of(symbol) * 200 >= count.total())
    };
    let mut symbols: Vec<&String> = counts[0].0.keys().filter(large).collect();
    symbols.sort_by_key(|symbol| std::cmp::Reverse(counts[0].of(symbol)));
    let mut rows = vec![texts(&[&["Symbol"], &names[..]].concat())];
    for symbol in symbols {
        let mut row = vec![symbol.clone()];
        row.extend(counts.iter().map(|c| share(c.of(symbol), c.total())));
        rows.push(row);
    }
    println!("Symbols of 0.5% and more; a function that is inlined counts for its caller:\n");
    table(&rows);
}

/// A read, the pairs in force, and instructions a line of both programs.
pub type Grown = (&'static str, u64, [f64; 2]);

/// The second implementation, where it is the measure of what the rules cost.
const PLAIN: &str = "A plain program of the same rules";

/// The reads with more and more pairs in force.
pub fn growth(grown: &[Grown]) {
    let mut rows = vec![texts(&["RD", "Pairs in force", "Program", PLAIN])];
    for read in READS {
        for (_, pairs, counts) in grown.iter().filter(|(name, ..)| *name == read) {
            let numbers = [*pairs as f64, counts[0], counts[1]].map(thousands);
            rows.push([&[read.to_string()], &numbers[..]].concat());
        }
    }
    println!("Growth with the pairs in force, instructions of an RD line, {LINES} counted:\n");
    table(&rows);
    few_and_many(grown);
}

/// The read that is to cost the same with few and with many pairs in force.
fn few_and_many(grown: &[Grown]) {
    let find = |wanted: u64| {
        let mut found = grown.iter();
        let found = found.find(|(name, pairs, _)| *name == FIRST && *pairs == wanted);
        found.expect("it was counted").2
    };
    let (few, many) = (find(2), find(900));
    let mut rows = vec![texts(&["Counted", "2 pairs", "900 pairs", "Difference"])];
    for (i, name) in ["Program", PLAIN].iter().enumerate() {
        let difference = many[i].round() - few[i].round();
        let numbers = [few[i], many[i], difference].map(thousands);
        rows.push([&[name.to_string()], &numbers[..]].concat());
    }
    println!("RD {FIRST}, the others in later slots:\n");
    table(&rows);
}

/// The times of both programs on each load, the best first.
pub fn times(loads: &[Load], times: &[[Vec<Duration>; 2]]) {
    let mut rows = vec![texts(&[
        "Load",
        "Program, lines a second",
        "Second implementation, lines a second",
        "Ratio of the times",
        "Program, s",
        "Second implementation, s",
    ])];
    for (load, both) in loads.iter().zip(times) {
        let seconds = |i: usize| both[i][0].as_secs_f64();
        let range = |i: usize| {
            let last = both[i][both[i].len() - 1].as_secs_f64();
            format!("{:.3} to {last:.3}", seconds(i))
        };
        rows.push(vec![
            load.name.to_string(),
            thousands(load.lines as f64 / seconds(0)),
            thousands(load.lines as f64 / seconds(1)),
            format!("{:.2}", seconds(0) / seconds(1)),
            range(0),
            range(1),
        ]);
    }
    table(&rows);
}

/// A kind of line: instructions a line of both programs, if they were counted,
/// and nanoseconds.
pub type Kind = (&'static str, Option<[f64; 2]>, [f64; 2]);

pub fn kinds(kinds: &[Kind]) {
    let mut rows = vec![texts(&[
        "Kind of line",
        "Program, instructions",
        "Second implementation, instructions",
        "Program, ns",
        "Second implementation, ns",
    ])];
    for (name, counts, nanoseconds) in kinds {
        let mut row = vec![name.to_string()];
        row.extend(match counts {
            Some(counts) => counts.map(thousands),
            None => ["-", "-"].map(String::from),
        });
        row.extend(nanoseconds.map(thousands));
        rows.push(row);
    }
    table(&rows);
}
