//! Instructions of a run by symbol, as callgrind counts them. They do not
//! depend on the machine's load.

use std::collections::BTreeMap;
use std::ffi::OsStr;
use std::fs::{self, File};
use std::io;
use std::path::Path;
use std::process::{Command, Stdio};

/// The name under which all symbols of the dynamic loader are counted.
const LOADER: &str = "(loader)";

/// libc may copy or fill a long run by one instruction, which callgrind counts
/// once for each byte; from which length on depends on the processor. Here it
/// does so at no length.
const TUNABLES: &str = "glibc.cpu.x86_rep_movsb_threshold=1000000000\
                        :glibc.cpu.x86_rep_stosb_threshold=1000000000";

/// The instructions of a run by symbol.
#[derive(Debug, PartialEq)]
pub struct Count(pub BTreeMap<String, u64>);

impl Count {
    pub fn total(&self) -> u64 {
        self.0.values().sum()
    }

    pub fn of(&self, symbol: &str) -> u64 {
        self.0.get(symbol).copied().unwrap_or(0)
    }

    /// The total without the loader, which works before the program starts.
    pub fn started(&self) -> u64 {
        self.total() - self.of(LOADER)
    }

    /// The sum over the symbols that pass a test.
    pub fn sum(&self, test: impl Fn(&str) -> bool) -> u64 {
        let symbols = self.0.iter().filter(|(symbol, _)| test(symbol));
        symbols.map(|(_, n)| n).sum()
    }

    /// What is more than in another run.
    pub fn less(mut self, other: &Count) -> Count {
        for (symbol, n) in &mut self.0 {
            *n = n.saturating_sub(other.of(symbol));
        }
        self
    }
}

/// True for the symbols that copy.
pub fn copies(symbol: &str) -> bool {
    symbol.contains("memcpy") || symbol.contains("memmove")
}

pub fn installed() -> bool {
    let mut valgrind = Command::new("valgrind");
    valgrind.arg("--version").stdout(Stdio::null());
    valgrind.status().is_ok_and(|status| status.success())
}

/// A run of a program with arguments on an input, and what it wrote.
pub fn count<A: AsRef<OsStr>>(
    program: &Path,
    args: &[A],
    input: &Path,
    out: &Path,
) -> io::Result<(Count, Vec<u8>)> {
    let (found, wrote) = (out.with_extension("callgrind"), out.with_extension("out"));
    let status = Command::new("valgrind")
        .args(["-q", "--tool=callgrind", "--compress-strings=no"])
        .arg(format!("--callgrind-out-file={}", found.display()))
        .arg(program)
        .args(args)
        .env("GLIBC_TUNABLES", TUNABLES)
        .stdin(File::open(input)?)
        .stdout(File::create(&wrote)?)
        .status()?;
    if !status.success() {
        let program = program.display();
        return Err(io::Error::other(format!("valgrind {program}: {status}")));
    }
    let text = String::from_utf8_lossy(&fs::read(&found)?).into_owned();
    let found = found.display();
    let count = read(&text).ok_or_else(|| io::Error::other(format!("{found}: not understood")))?;
    Ok((count, fs::read(&wrote)?))
}

/// Callgrind's file: `ob=` and `fn=` name the object and the symbol of the
/// costs that follow, a line each; after `calls=` stands the cost of a call,
/// which counts for the symbol that is called. None if it does not add up.
fn read(text: &str) -> Option<Count> {
    let mut costs = BTreeMap::new();
    let (mut object, mut symbol) = (String::new(), String::new());
    let (mut called, mut totals) = (false, None);
    for line in text.lines() {
        if let Some(name) = line.strip_prefix("ob=") {
            object = name.to_string();
        } else if let Some(name) = line.strip_prefix("fn=") {
            let loader = object.contains("/ld-linux") || object.contains("/ld-musl");
            symbol = if loader { LOADER } else { name }.to_string();
        } else if line.starts_with("calls=") {
            called = true;
        } else if let Some(n) = line.strip_prefix("totals: ") {
            totals = n.trim().parse().ok();
        } else if line.starts_with(|c: char| c.is_ascii_digit() || "+-*".contains(c)) {
            let cost: u64 = line.split(' ').nth(1)?.parse().ok()?;
            if !std::mem::take(&mut called) {
                *costs.entry(symbol.clone()).or_insert(0) += cost;
            }
        }
    }
    let count = Count(costs);
    (totals == Some(count.total())).then_some(count)
}

#[test]
fn reads_what_callgrind_writes() {
    let text = "version: 1\nevents: Ir\nsummary: 66\n\nob=/lib/ld-linux-x86-64.so.2\nfl=???\n\
                fn=start\n0 7\ncob=/bin/a\ncfi=???\ncfn=a::run\ncalls=1 0\n0 59\n\n\
                ob=/bin/a\nfl=???\nfn=a::run\n0 9\n+3 10\n* 20\ncfn=memcpy\ncalls=2 0\n-1 20\n\n\
                fn=memcpy\n0 20\n\ntotals: 66\n";
    let count = read(text).unwrap();
    let costs = [(LOADER, 7), ("a::run", 39), ("memcpy", 20)];
    let costs = costs.map(|(symbol, n)| (symbol.to_string(), n));
    assert_eq!(count, Count(costs.into()));
    assert_eq!((count.started(), count.sum(copies)), (59, 20));
    assert_eq!(read(&text.replace("totals: 66", "totals: 67")), None);
}
