//! `bench_panel FOLDER [CALLS]`: instructions of a call through C, on a state
//! in which every place is used. The cost of a call is what twice as many calls
//! take more, by their number.

use panel::kinds::{Kind, KINDS};
use refmonitor::callgrind;
use refmonitor::table::{table, texts, thousands};
use std::collections::BTreeMap;
use std::io;
use std::path::Path;
use std::process::ExitCode;

const CALLS: u64 = 200;

/// What reading, judging and writing take: one kind of call less another.
const PARTS: [(&str, &str, &str); 5] = [
    ("Reading image and store", "domain", "short"),
    ("Judging, granted by the first pair", "first", "domain"),
    (
        "Judging, granted by the seventh slot's pair",
        "seventh",
        "domain",
    ),
    ("Writing the image", "lo", "gt"),
    ("Writing the store", "wr", "first"),
];

/// Instructions of a call of the kind.
fn cost(program: &Path, folder: &Path, kind: &Kind, calls: u64) -> io::Result<f64> {
    let count = |calls: u64| {
        let (args, out) = (
            [kind.name.to_string(), calls.to_string()],
            folder.join("counted-panel"),
        );
        let (count, _) = callgrind::count(program, &args, "/dev/null".as_ref(), &out)?;
        io::Result::Ok(count.total() as f64)
    };
    Ok((count(2 * calls)? - count(calls)?) / calls as f64)
}

fn run(folder: &Path, calls: u64) -> io::Result<()> {
    std::fs::create_dir_all(folder)?;
    let program = std::env::current_exe()?.with_file_name("panel_cost");
    let mut rows = vec![texts(&["Call through C", "Instructions"])];
    let mut costs = BTreeMap::new();
    for kind in KINDS {
        let cost = cost(&program, folder, &kind, calls)?;
        rows.push(vec![kind.title.to_string(), thousands(cost)]);
        costs.insert(kind.name, cost);
    }
    println!("A call through C on a full state, by callgrind, {calls} calls counted:\n");
    table(&rows);
    let mut rows = vec![texts(&["Part of a call through C", "Instructions"])];
    for (words, kind, less) in PARTS {
        rows.push(vec![
            words.to_string(),
            thousands(costs[kind] - costs[less]),
        ]);
    }
    println!("What is in them, as differences:\n");
    table(&rows);
    Ok(())
}

fn main() -> ExitCode {
    let args: Vec<String> = std::env::args().skip(1).collect();
    let calls = args.get(1).map_or(Some(CALLS), |a| a.parse().ok());
    // Even, since two calls may follow one another by turns.
    let calls = calls.filter(|&calls| calls > 0 && calls % 2 == 0);
    let (Some(folder), Some(calls), true) = (args.first(), calls, args.len() < 3) else {
        eprintln!("usage: bench_panel FOLDER [CALLS], an even number of calls");
        return ExitCode::from(2);
    };
    if !callgrind::installed() {
        println!("valgrind is not installed here, so no instructions are counted");
        return ExitCode::SUCCESS;
    }
    match run(folder.as_ref(), calls) {
        Ok(()) => ExitCode::SUCCESS,
        Err(e) => {
            eprintln!("bench_panel: {e}");
            ExitCode::FAILURE
        }
    }
}
