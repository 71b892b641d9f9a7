//! The programs `accounts` and `objects`: they read call lines as the call program
//! does and print no answers, but at the end the state they came to.

use crate::lines;
use crate::monitor::Monitor;
use std::io::{self, BufRead, BufReader, Write};
use std::process::ExitCode;

/// What is printed of the last state.
pub type Text = fn(&Monitor) -> String;

/// The program.
pub fn run<I: BufRead, O: Write>(text: Text, input: I, output: &mut O) -> io::Result<()> {
    let mut monitor = Monitor::new();
    let answer = |domain, call: &_| monitor.call(domain, call);
    lines::run_with(input, &mut io::sink(), answer)?;
    output.write_all(text(&monitor).as_bytes())?;
    output.flush()
}

/// The program over bytes in memory.
pub fn run_bytes(text: Text, input: &[u8]) -> Vec<u8> {
    let mut output = Vec::new();
    run(text, input, &mut output).expect("memory does not fail");
    output
}

/// The program with this name, from standard input to standard output.
pub fn main(name: &str, text: Text) -> ExitCode {
    let input = BufReader::with_capacity(1 << 16, io::stdin().lock());
    match run(text, input, &mut io::stdout().lock()) {
        Ok(()) => ExitCode::SUCCESS,
        Err(e) => {
            eprintln!("{name}: {e}");
            ExitCode::FAILURE
        }
    }
}
