//! `bench PROGRAM FOLDER [LINES]`: a program beside the reference on the same
//! lines: instructions, where they go, and times.

mod instructions;
mod loads;
mod report;
mod times;

use loads::{repeated, Load};
use refmonitor::callgrind;
use refmonitor::table::thousands;
use refmonitor::workload;
use std::io;
use std::path::PathBuf;
use std::process::ExitCode;

/// The lines of one kind that are timed, and that are counted.
const TIMED: u64 = 100_000;
const COUNTED: u64 = 5_000;

/// How often `sound_cost` calls `sound`.
const SOUND_CALLS: f64 = 1000.0;

/// The program and the reference, and a folder for what they read and write.
struct Pair {
    programs: [PathBuf; 2],
    folder: PathBuf,
}

fn fault(what: String) -> io::Error {
    io::Error::other(what)
}

/// Instructions a line on the loads, less the stage alone, and where they go.
fn count_loads(pair: &Pair, loads: &[Load]) -> io::Result<()> {
    let stage = repeated(&workload::stage(), &[], 0);
    let stage = instructions::both(pair, &stage, &[])?;
    let mut counts = Vec::new();
    for load in loads {
        counts.push(instructions::both(pair, &load.input, &stage)?);
    }
    report::instructions(loads, &counts, workload::stage().len() as u64);
    report::parts(loads, &counts);
    report::symbols(loads, &counts);
    Ok(())
}

/// Instructions of a call of `sound`, by a program that stands beside the one
/// that is measured.
fn count_sound(pair: &Pair) -> io::Result<()> {
    let program = pair.programs[0].with_file_name("sound_cost");
    if !program.exists() {
        println!(
            "sound: there is no {}, so it is not counted\n",
            program.display()
        );
        return Ok(());
    }
    let out = pair.folder.join("counted-sound");
    let (count, wrote) = callgrind::count::<&str>(&program, &[], "/dev/null".as_ref(), &out)?;
    println!(
        "sound: {} instructions a call, {:.1}% of them copying (sound_cost wrote {})\n",
        thousands(count.started() as f64 / SOUND_CALLS),
        100.0 * count.sum(callgrind::copies) as f64 / count.started() as f64,
        String::from_utf8_lossy(&wrote).trim_end()
    );
    Ok(())
}

fn time_loads(pair: &Pair, loads: &[Load]) -> io::Result<()> {
    let mut times = Vec::new();
    for load in loads {
        times.push(times::both(pair, &load.input)?);
    }
    println!(
        "Times, {} runs each by turns, the best counts; outputs the same to the byte:\n",
        times::ROUNDS
    );
    report::times(loads, &times);
    Ok(())
}

/// Lines of a single kind behind their stage, less the stage alone.
fn kinds(pair: &Pair, counting: bool) -> io::Result<()> {
    let mut measured = Vec::new();
    for kinds in loads::kinds() {
        let counts = match counting {
            true => Some(instructions::by_kind(pair, &kinds, COUNTED)?),
            false => None,
        };
        let times = times::by_kind(pair, &kinds, TIMED)?;
        for (i, (name, _)) in kinds.kinds.iter().enumerate() {
            let counts = counts.as_ref().map(|counts| counts[i]);
            measured.push((*name, counts, times[i]));
        }
    }
    println!("A line by kind, {COUNTED} lines counted and {TIMED} timed:\n");
    report::kinds(&measured);
    Ok(())
}

fn run(args: &[String]) -> io::Result<()> {
    let lines = args.get(2).map_or(Some(400_000), |a| a.parse().ok());
    let least = 4 * workload::stage().len() as u64;
    let lines = lines.filter(|&lines| lines >= least);
    let lines = lines.ok_or_else(|| fault(format!("LINES is no number from {least} on")))?;
    let here = std::env::current_exe()?;
    let pair = Pair {
        programs: [args[0].clone().into(), here.with_file_name("reference")],
        folder: args[1].clone().into(),
    };
    std::fs::create_dir_all(&pair.folder)?;
    let loads = loads::loads(lines)?;
    for load in &loads {
        println!("{}", load.mix());
    }
    println!();
    let counting = callgrind::installed();
    if counting {
        count_loads(&pair, &loads)?;
        count_sound(&pair)?;
        report::growth(&instructions::by_pairs(&pair)?);
    } else {
        println!("valgrind is not installed here, so no instructions are counted\n");
    }
    time_loads(&pair, &loads)?;
    kinds(&pair, counting)
}

fn main() -> ExitCode {
    let args: Vec<String> = std::env::args().skip(1).collect();
    if !(2..=3).contains(&args.len()) {
        eprintln!("usage: bench PROGRAM FOLDER [LINES]");
        return ExitCode::from(2);
    }
    match run(&args) {
        Ok(()) => ExitCode::SUCCESS,
        Err(e) => {
            eprintln!("bench: {e}");
            ExitCode::FAILURE
        }
    }
}
