//! `compare [--accounts | --objects] PROGRAM [SEEDS] [LINES] [FIRST]`: another call
//! program, or another program `accounts` or `objects`, against this one. Status 1
//! for a difference, and where the generated lines did not reach all that they
//! should.

use refmonitor::compare::{self, Compared, Plan, Ran, Reference};
use std::process::ExitCode;
use std::time::Duration;

/// How long differing inputs are shortened, at most.
const SHRINKING: Duration = Duration::from_secs(40);

fn main() -> ExitCode {
    let args: Vec<String> = std::env::args().skip(1).collect();
    let words: Vec<&str> = args.iter().map(String::as_str).collect();
    let (reference, args) = Reference::asked(&words);
    let numbers: Option<Vec<u64>> = args.iter().skip(1).map(|a| a.parse().ok()).collect();
    let number = |i: usize, default| match &numbers {
        Some(numbers) => numbers.get(i).copied().unwrap_or(default),
        None => 0,
    };
    let plan = Plan {
        seeds: number(0, 40),
        lines: number(1, 5000),
        first: number(2, 1),
    };
    let all = plan.seeds > 0 && plan.lines > 0 && plan.first > 0 && args.len() < 5;
    let (Some(&program), true) = (args.first(), all) else {
        eprintln!("usage: compare [--accounts | --objects] PROGRAM [SEEDS] [LINES] [FIRST]");
        return ExitCode::from(2);
    };
    let mut run = |input: &[u8], feed| {
        compare::run_program(program, input, feed).unwrap_or_else(|e| Ran {
            output: Vec::new(),
            trouble: Some(e.to_string()),
        })
    };
    let mut tell = |what: &str| println!("{what}");
    let compared = match compare::search(reference, &mut run, plan, &mut tell) {
        Ok(compared) => compared,
        Err(found) => {
            println!("looking for the shortest run that shows it");
            if let Some(difference) = compare::shortest(&mut run, found, SHRINKING) {
                print!("{}", compare::report(&difference));
            }
            return ExitCode::FAILURE;
        }
    };
    reached(&compared)
}

/// Tells what the generated lines reached, and fails where that is not all.
fn reached(compared: &Compared) -> ExitCode {
    let coverage = &compared.coverage;
    let (missing, strange) = (coverage.missing(), coverage.strange());
    for what in &missing {
        println!("never reached by the generated lines: {what}");
    }
    for (letters, answer) in &strange {
        println!("not in the table of answers: {letters} with answer {answer}");
    }
    if missing.is_empty() && strange.is_empty() {
        println!("reached: {}", coverage.summary());
        println!("no difference in {} lines", compared.lines);
        ExitCode::SUCCESS
    } else {
        ExitCode::FAILURE
    }
}
