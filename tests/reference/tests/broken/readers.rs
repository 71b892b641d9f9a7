//! Broken readers of the input.

use crate::{found, SHORT};
use refmonitor::compare::{search, Feed, Ran, ANSWERS};
use refmonitor::lines::run_bytes;

type Tamper = fn(&[u8]) -> Vec<u8>;

/// The program over input that was tampered with.
fn tampered(tamper: Tamper) -> impl FnMut(&[u8], Feed) -> Ran {
    move |input, _| Ran::well(run_bytes(&tamper(input)))
}

/// An RG of 201 bytes loses its last entry.
fn cut_long_lines(input: &[u8]) -> Vec<u8> {
    let mut out = Vec::new();
    for line in input.split_inclusive(|&b| b == b'\n') {
        let (bytes, end) = match line.strip_suffix(b"\n") {
            Some(bytes) => (bytes, "\n"),
            None => (line, ""),
        };
        let cut = match bytes.len() {
            201 => bytes.iter().rposition(|&b| b == b',').unwrap_or(200),
            length => length,
        };
        out.extend_from_slice(&bytes[..cut]);
        out.extend_from_slice(end.as_bytes());
    }
    out
}

#[test]
fn broken_readers_are_found() {
    let ways: [(&str, Tamper); 7] = [
        ("carriage returns dropped", |input| {
            input.iter().copied().filter(|&b| b != b'\r').collect()
        }),
        ("blanks dropped", |input| {
            input.iter().copied().filter(|&b| b != b' ').collect()
        }),
        ("NULs dropped", |input| {
            input.iter().copied().filter(|&b| b != 0).collect()
        }),
        ("small letters taken", |input| input.to_ascii_uppercase()),
        ("last line feed supplied", |input| {
            let mut input = input.to_vec();
            if input.last().is_some_and(|&b| b != b'\n') {
                input.push(b'\n');
            }
            input
        }),
        ("last piece dropped", |input| {
            let end = input.iter().rposition(|&b| b == b'\n').map_or(0, |i| i + 1);
            input[..end].to_vec()
        }),
        ("long lines cut", cut_long_lines),
    ];
    for (name, tamper) in ways {
        found(name, &mut tampered(tamper), 3);
    }
}

#[test]
fn faults_at_the_ends_of_pieces_are_found() {
    let ways: [(&str, Tamper); 3] = [
        ("a line ends at 64 KiB", |input| {
            let mut input = input.to_vec();
            if input.len() > 65_536 && input[65_535] != b'\n' {
                input.insert(65_536, b'\n');
            }
            input
        }),
        ("a byte lost at 4 KiB", |input| {
            let mut input = input.to_vec();
            if input.len() > 4096 {
                input.remove(4096);
            }
            input
        }),
        ("all beyond a MiB dropped", |input| {
            input[..input.len().min(1 << 20)].to_vec()
        }),
    ];
    for (name, tamper) in ways {
        // The pieces that matter are long, and so are the runs.
        found(name, &mut tampered(tamper), 20_000);
    }
    let mut other = |input: &[u8], feed| {
        let end = match feed {
            Feed::Pieces(size) => input.len().min(size),
            _ => input.len(),
        };
        Ran::well(run_bytes(&input[..end]))
    };
    let found = search(ANSWERS, &mut other, SHORT, &mut |_| {});
    let found = found.err().expect("a short read taken as the end");
    assert_eq!(found[0].feed, Feed::Pieces(1));
}
