//! The call program's lines: reading them and printing the answers.

use crate::monitor::{Call, Capability, Done, Monitor, Outcome, Refusal};
use std::io::{self, BufRead, Write};

/// The most bytes of a readable line, its line feed not counted.
pub const MAX_LINE: usize = 200;

pub const HEADER: &str = "line,answer,value\n";

/// The boot of the paper's listing, with ample accounts: limits of 128, sets of
/// 15, and account 0 for every home.
pub const BOOT: &str = "0,BT,11,12,13,14,128,128,128,128,0,15,0,15,0,15,0,15";

/// The call letters and how many arguments each takes; RG takes at least four.
pub const LETTERS: [(&str, usize); 16] = [
    ("BT", 16),
    ("RD", 1),
    ("WR", 2),
    ("EX", 1),
    ("LK", 2),
    ("CR", 4),
    ("DL", 1),
    ("AP", 3),
    ("DP", 2),
    ("RG", 4),
    ("IN", 3),
    ("RM", 1),
    ("GT", 0),
    ("LO", 1),
    ("CA", 2),
    ("RT", 0),
];

/// A decimal number below 2^64 without leading zeros.
pub fn number(field: &[u8]) -> Option<u64> {
    if field.is_empty() || (field[0] == b'0' && field.len() > 1) {
        return None;
    }
    let mut value: u64 = 0;
    for &byte in field {
        if !byte.is_ascii_digit() {
            return None;
        }
        value = value.checked_mul(10)?.checked_add(u64::from(byte - b'0'))?;
    }
    Some(value)
}

/// A line without its line feed: the domain and the call, if it is readable.
pub fn read(line: &[u8]) -> Option<(u64, Call)> {
    if line.len() > MAX_LINE {
        return None;
    }
    let mut fields = line.split(|&b| b == b',');
    let domain = number(fields.next()?)?;
    let letters = fields.next()?;
    let numbers: Vec<u64> = fields.map(number).collect::<Option<_>>()?;
    Some((domain, call_of(letters, &numbers)?))
}

fn capability(page: u64, password: u64) -> Capability {
    Capability { page, password }
}

/// The boot with these arguments: four home passwords, four limits, then each
/// domain's home account and set.
fn boot_of(numbers: [u64; 16]) -> Call {
    let four = |first: usize, step: usize| [0, 1, 2, 3].map(|i| numbers[first + step * i]);
    Call::Bt {
        homes: four(0, 1),
        limits: four(4, 1),
        accounts: four(8, 2),
        sets: four(9, 2),
    }
}

/// The call of these letters with these arguments.
fn call_of(letters: &[u8], numbers: &[u64]) -> Option<Call> {
    Some(match (letters, numbers) {
        (b"BT", numbers) => boot_of(numbers.try_into().ok()?),
        (b"RD", &[address]) => Call::Rd { address },
        (b"WR", &[address, value]) => Call::Wr { address, value },
        (b"EX", &[address]) => Call::Ex { address },
        (b"LK", &[address, rights]) => Call::Lk { address, rights },
        (b"CR", &[page, count, password, account]) => Call::Cr {
            page,
            count,
            password,
            account,
        },
        (b"DL", &[base]) => Call::Dl { base },
        (b"AP", &[base, password, mode]) => Call::Ap {
            base,
            password,
            mode,
        },
        (b"DP", &[base, password]) => Call::Dp { base, password },
        (b"RG", &[base, password, page, word, ref entries @ ..]) => Call::Rg {
            base,
            password,
            list: capability(page, word),
            entries: entries.to_vec(),
        },
        (b"IN", &[slot, page, password]) => Call::In {
            slot,
            list: capability(page, password),
        },
        (b"RM", &[slot]) => Call::Rm { slot },
        (b"GT", &[]) => Call::Gt,
        (b"LO", &[slot]) => Call::Lo { slot },
        (b"CA", &[address, choice]) => Call::Ca { address, choice },
        (b"RT", &[]) => Call::Rt,
        _ => return None,
    })
}

/// The readable calls of an input.
pub fn calls(input: &[u8]) -> Vec<(u64, Call)> {
    let lines = input.split_inclusive(|&b| b == b'\n');
    lines
        .filter_map(|line| read(line.strip_suffix(b"\n")?))
        .collect()
}

/// Take the next line into `line`. `None` at the end of the input, else
/// whether the line may be readable: it has its line feed and is not too long.
/// Of a longer line only the start is kept.
pub fn next_line<I: BufRead>(input: &mut I, line: &mut Vec<u8>) -> io::Result<Option<bool>> {
    line.clear();
    let mut any = false;
    loop {
        let piece = match input.fill_buf() {
            Ok(piece) => piece,
            Err(e) if e.kind() == io::ErrorKind::Interrupted => continue,
            Err(e) => return Err(e),
        };
        if piece.is_empty() {
            return Ok(any.then_some(false));
        }
        any = true;
        let feed = piece.iter().position(|&b| b == b'\n');
        let bytes = &piece[..feed.unwrap_or(piece.len())];
        let room = MAX_LINE + 1 - line.len();
        line.extend_from_slice(&bytes[..bytes.len().min(room)]);
        let used = bytes.len() + usize::from(feed.is_some());
        input.consume(used);
        if feed.is_some() {
            return Ok(Some(line.len() <= MAX_LINE));
        }
    }
}

/// Print one line's number, answer and value or fields.
pub fn print<O: Write>(output: &mut O, line: u64, outcome: &Outcome) -> io::Result<()> {
    match outcome {
        Ok(Done::Value(value)) => writeln!(output, "{line},0,{value}"),
        Ok(Done::Fields(fields)) => {
            write!(output, "{line},0")?;
            for field in fields {
                write!(output, ",{field}")?;
            }
            writeln!(output)
        }
        Err(refusal) => writeln!(output, "{line},{},0", *refusal as u8),
    }
}

/// The call program over any way of answering a call.
pub fn run_with<I: BufRead, O: Write>(
    mut input: I,
    output: &mut O,
    mut answer: impl FnMut(u64, &Call) -> Outcome,
) -> io::Result<()> {
    output.write_all(HEADER.as_bytes())?;
    let mut line = Vec::with_capacity(MAX_LINE + 1);
    let mut count = 0;
    while let Some(whole) = next_line(&mut input, &mut line)? {
        count += 1;
        let outcome = match read(&line) {
            Some((domain, call)) if whole => answer(domain, &call),
            _ => Err(Refusal::Unreadable),
        };
        print(output, count, &outcome)?;
    }
    output.flush()
}

/// The call program.
pub fn run<I: BufRead, O: Write>(input: I, output: &mut O) -> io::Result<()> {
    let mut monitor = Monitor::new();
    run_with(input, output, |domain, call| monitor.call(domain, call))
}

/// The call program over bytes in memory.
pub fn run_bytes(input: &[u8]) -> Vec<u8> {
    let mut output = Vec::new();
    run(input, &mut output).expect("memory does not fail");
    output
}
