//! `panel_cost KIND CALLS`: so many calls of one kind on a state in which every
//! place is used. For counting instructions; bench_panel runs it.

use panel::kinds::KINDS;
use panel::real;
use std::process::ExitCode;

fn main() -> ExitCode {
    let args: Vec<String> = std::env::args().skip(1).collect();
    let kind = KINDS
        .iter()
        .find(|k| Some(k.name) == args.first().map(String::as_str));
    let calls: Option<usize> = args.get(1).and_then(|a| a.parse().ok());
    let (Some(kind), Some(calls), 2) = (kind, calls, args.len()) else {
        let names: Vec<&str> = KINDS.iter().map(|k| k.name).collect();
        eprintln!(
            "usage: panel_cost KIND CALLS; a kind is one of {}",
            names.join(", ")
        );
        return ExitCode::from(2);
    };
    let (mut slices, each) = (kind.slices(), kind.calls());
    for i in 0..calls {
        let (domain, call) = &each[i % each.len()];
        let answer = real(&mut slices, *domain, call);
        if answer != kind.answer {
            eprintln!("panel_cost: {call:?} gave {answer}, not {}", kind.answer);
            return ExitCode::FAILURE;
        }
    }
    ExitCode::SUCCESS
}
