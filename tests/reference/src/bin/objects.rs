//! The objects that stand after the call lines of standard input.

use refmonitor::{at_end, objects};
use std::process::ExitCode;

fn main() -> ExitCode {
    at_end::main("objects", objects::printed)
}
