//! `modes PRINTER MONITOR CHART`: what the first program prints is the mode
//! rule, the second answers by that table at each mode, and the document has
//! its chart. Status 1 where it is not so. `modes PRINTER` prints the chart.

use refmonitor::compare::{run_program, Feed};
use refmonitor::modes;
use std::fs;
use std::process::ExitCode;

/// A program's output, where it ended well.
fn output(program: &str, input: &str) -> Result<String, String> {
    let wrong = |why: String| format!("{program}: {why}");
    let ran = run_program(program, input.as_bytes(), Feed::File);
    let ran = ran.map_err(|e| wrong(e.to_string()))?;
    match ran.trouble {
        Some(trouble) => Err(wrong(trouble)),
        None => String::from_utf8(ran.output).map_err(|e| wrong(e.to_string())),
    }
}

fn check(printer: &str, others: &[String]) -> Result<String, String> {
    let text = output(printer, "")?;
    let entries = modes::printed(&text).map_err(|e| format!("{printer}: {e}"))?;
    let chart = modes::chart(&entries);
    let [monitor, document] = others else {
        return Ok(chart);
    };
    let (input, answers) = modes::trials(&entries);
    if output(monitor, &input)? != answers {
        return Err(format!("{monitor}: AP does not go by the printed table"));
    }
    let kept = fs::read_to_string(document).map_err(|e| format!("{document}: {e}"))?;
    if modes::block(&kept) != chart {
        return Err(format!("{document}: its chart is not\n{chart}"));
    }
    Ok("the printed mode table: by the rule, in use, and as on the chart\n".into())
}

fn main() -> ExitCode {
    let args: Vec<String> = std::env::args().skip(1).collect();
    let (Some((printer, others)), true) = (args.split_first(), [1, 3].contains(&args.len())) else {
        eprintln!("usage: modes PRINTER [MONITOR CHART]");
        return ExitCode::from(2);
    };
    match check(printer, others) {
        Ok(text) => {
            print!("{text}");
            ExitCode::SUCCESS
        }
        Err(why) => {
            println!("{why}");
            ExitCode::FAILURE
        }
    }
}
