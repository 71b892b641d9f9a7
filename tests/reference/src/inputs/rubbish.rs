//! Damaged input.

use super::input;
use crate::damage::register_line;
use crate::lines::BOOT;
use crate::random::Random;

/// Lines with bytes changed, taken out and put in.
pub fn damaged_bytes(seed: u64, lines: u64) -> Vec<u8> {
    let mut random = Random::new(seed ^ 0xda3a);
    let mut bytes = input(seed, lines.min(1000));
    for _ in 0..bytes.len() / 60 {
        let at = random.index(bytes.len());
        match random.below(3) {
            0 => bytes[at] = random.word() as u8,
            1 => {
                bytes.remove(at);
            }
            _ => bytes.insert(at, random.pick(b"0,\n\r R9")),
        }
    }
    bytes
}

/// How many ways `rubbish` knows.
pub const RUBBISH: u64 = 16;

/// Input that is no list of lines, in the way `seed % RUBBISH`.
pub fn rubbish(seed: u64, lines: u64) -> Vec<u8> {
    let mut random = Random::new(seed ^ 0x5eed);
    let most = random.pick(&[30, 3000, 30_000]);
    let some = 1 + random.index(most);
    let lines = lines.min(1000);
    match seed % RUBBISH {
        0 => Vec::new(),
        1 => vec![b'\n'; some],
        2 => (0..some).map(|_| random.word() as u8).collect(),
        3 => {
            let alphabet = b"0123456789,,,,,RDWRLKCABTGTRT\n\n";
            (0..some).map(|_| random.pick(alphabet)).collect()
        }
        4 => damaged_bytes(seed, lines),
        5 => cut_short(input(seed, lines), &mut random),
        6 => very_long_lines(),
        // More than a MiB without a line feed.
        7 => vec![random.pick(b"0,R\0\xff"); (1 << 20) + some],
        8 => with_nuls(input(seed, lines), &mut random),
        9 => vec![0; some],
        10 => carriage_returns(&input(seed, lines), b"\r\n"),
        11 => carriage_returns(&input(seed, lines), b"\r"),
        12 => without_last_feeds(input(seed, lines)),
        13 => with_empty_lines(&input(seed, lines.min(300)), &mut random),
        14 => in_wrong_order(&input(seed, lines), &mut random),
        _ => long_last_line(&mut random),
    }
}

/// Cut in the midst of a line.
fn cut_short(mut bytes: Vec<u8>, random: &mut Random) -> Vec<u8> {
    let keep = random.index(bytes.len().max(1));
    bytes.truncate(keep);
    bytes
}

/// Very long lines among good ones.
fn very_long_lines() -> Vec<u8> {
    let mut bytes = format!("{BOOT}\n").into_bytes();
    for length in [199, 200, 201, 202, 4095, 65_536, 1_000_000] {
        bytes.extend(register_line(length));
        bytes.extend_from_slice(b"\n0,RD,0\n0,RD,");
        bytes.resize(bytes.len() + length, b'0');
        bytes.extend_from_slice(b"\n1,GT\n");
    }
    bytes
}

fn with_nuls(mut bytes: Vec<u8>, random: &mut Random) -> Vec<u8> {
    for _ in 0..40 {
        let at = random.index(bytes.len() + 1);
        bytes.insert(at, 0);
    }
    bytes
}

/// Lines ended by `end`.
fn carriage_returns(bytes: &[u8], end: &[u8]) -> Vec<u8> {
    let mut out = Vec::new();
    for &byte in bytes {
        if byte == b'\n' {
            out.extend_from_slice(end);
        } else {
            out.push(byte);
        }
    }
    out
}

fn without_last_feeds(mut bytes: Vec<u8>) -> Vec<u8> {
    while bytes.last() == Some(&b'\n') {
        bytes.pop();
    }
    bytes
}

fn with_empty_lines(bytes: &[u8], random: &mut Random) -> Vec<u8> {
    let mut out = Vec::new();
    for &byte in bytes {
        out.push(byte);
        if byte == b'\n' {
            out.resize(out.len() + random.index(3), b'\n');
        }
    }
    out
}

fn in_wrong_order(bytes: &[u8], random: &mut Random) -> Vec<u8> {
    let mut all: Vec<&[u8]> = bytes.split_inclusive(|&b| b == b'\n').collect();
    for i in (1..all.len()).rev() {
        all.swap(i, random.index(i + 1));
    }
    all.concat()
}

/// A last line of 199 to 202 bytes without its line feed.
fn long_last_line(random: &mut Random) -> Vec<u8> {
    let mut bytes = format!("{BOOT}\n").into_bytes();
    bytes.extend(register_line(199 + random.index(4)));
    bytes
}
