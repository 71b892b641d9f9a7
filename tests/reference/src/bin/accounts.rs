//! The pages of each account after the call lines of standard input.

use refmonitor::{at_end, figures};
use std::process::ExitCode;

fn main() -> ExitCode {
    at_end::main("accounts", figures::printed)
}
