//! What the program `objects` prints: every object that stands, bases rising.

use crate::at_end;
use crate::lines::number;
use crate::monitor::{Monitor, Object};

pub const HEADER: &str = "base,pages,account,passwords,pdx\n";

/// An object in print: base, page count, account, number of ordinary passwords,
/// and 1 or 0 for a registration.
pub fn line(object: &Object) -> String {
    let Object {
        base,
        pages,
        passwords,
        registration,
        account,
    } = object;
    let passwords = passwords.len();
    let pdx = u8::from(registration.is_some());
    format!("{base},{pages},{account},{passwords},{pdx}\n")
}

/// What is printed of a state.
pub fn printed(monitor: &Monitor) -> String {
    let lines = monitor.by_base().into_iter().map(line);
    HEADER.to_string() + &lines.collect::<String>()
}

/// The header, then lines of five numbers, the first of them rising, the last 1
/// or 0. It does not ask what is right.
pub fn in_form(output: &[u8]) -> bool {
    let Some(rest) = output.strip_prefix(HEADER.as_bytes()) else {
        return false;
    };
    let mut bases = Vec::new();
    for line in rest.split_inclusive(|&b| b == b'\n') {
        let Some(line) = line.strip_suffix(b"\n") else {
            return false;
        };
        let fields: Option<Vec<u64>> = line.split(|&b| b == b',').map(number).collect();
        let Some([base, _, _, _, 0 | 1]) = fields.as_deref() else {
            return false;
        };
        bases.push(*base);
    }
    bases.windows(2).all(|two| two[0] < two[1])
}

/// The program over bytes in memory.
pub fn run_bytes(input: &[u8]) -> Vec<u8> {
    at_end::run_bytes(printed, input)
}
