//! The Rust client, the call program and the second implementation on the same
//! lines. RESHQOBI_PROGRAM names the program; else it is target/bin/monitor.

use panel::answer;
use refmonitor::compare::{run_program, Feed};
use refmonitor::inputs;
use refmonitor::lines::{run_bytes, run_with};
use std::path::Path;

fn program() -> String {
    let built = concat!(env!("CARGO_MANIFEST_DIR"), "/../../target/bin/monitor");
    let program = std::env::var("RESHQOBI_PROGRAM").unwrap_or(built.to_string());
    assert!(
        Path::new(&program).exists(),
        "there is no program {program}"
    );
    program
}

/// What the call program would print if the client gave its answers.
fn by_client(input: &[u8]) -> Vec<u8> {
    let (mut client, mut output) = (reshqobi::Monitor::new(), Vec::new());
    run_with(input, &mut output, |domain, call| {
        answer(&mut client, domain, call)
    })
    .unwrap();
    output
}

#[test]
fn all_three_print_the_same() {
    let program = program();
    let generated = (21..=23).map(|seed| inputs::input(seed, 3_000));
    let damaged = (1..=inputs::RUBBISH).map(|seed| inputs::rubbish(seed, 500));
    for (i, input) in generated.chain(damaged).enumerate() {
        let ran = run_program(&program, &input, Feed::File).unwrap();
        assert_eq!(ran.trouble, None, "input {i}");
        let client = by_client(&input);
        assert!(
            client == ran.output,
            "input {i}: the client and the program differ"
        );
        assert!(
            client == run_bytes(&input),
            "input {i}: the client and the second implementation differ"
        );
    }
}
