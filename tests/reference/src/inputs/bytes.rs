//! Bytes and lengths: every byte at every place, long lines, and lines across
//! the bounds at which input is read.

use crate::damage::register_line;
use crate::lines::BOOT;
use crate::random::Random;

/// Every byte value at every place of a short line.
pub fn bytes() -> Vec<u8> {
    let mut out = format!("{BOOT}\n").into_bytes();
    let line = b"0,LK,10,1";
    for byte in 0..=255 {
        for at in 0..=line.len() {
            let mut changed = line.to_vec();
            if at < line.len() {
                changed[at] = byte;
                out.extend_from_slice(&changed);
                out.push(b'\n');
                changed[at] = line[at];
            }
            changed.insert(at, byte);
            out.extend_from_slice(&changed);
            out.push(b'\n');
        }
    }
    out
}

/// Lines of about 200 bytes, and a few that are much longer, among short ones.
pub fn long_lines(seed: u64) -> Vec<u8> {
    let mut random = Random::new(seed ^ 0x10e6);
    let mut bytes = format!("{BOOT}\n").into_bytes();
    for length in (199..=202).chain((0..100).map(|i| 190 + i * 7 % 21)) {
        bytes.extend(register_line(length));
        bytes.extend_from_slice(b"\n0,RD,0\n");
        if random.percent(10) {
            let more = random.index(9000);
            bytes.resize(bytes.len() + more, b'7');
            bytes.extend_from_slice(b"\n0,GT\n");
        }
    }
    bytes
}

/// Lines that stand across a bound of the input, by every number of bytes:
/// 4 KiB and 64 KiB are usual sizes of what is read at once.
pub fn across() -> Vec<(String, Vec<u8>)> {
    let mut all = Vec::new();
    let write = b"0,WR,10,18446744073709551615".to_vec();
    let few = [0, 1, 2, 100, 198, 199, 200, 201, 202];
    for bound in [4096, 65_536] {
        for (line, ahead) in [
            (&write, (0..=write.len() + 1).collect::<Vec<_>>()),
            (&register_line(200), few.to_vec()),
            (&register_line(201), few.to_vec()),
        ] {
            for ahead in ahead {
                let mut bytes = format!("{BOOT}\n").into_bytes();
                // One long line before it, or many of 99 bytes and a rest.
                let start = bound - ahead;
                while ahead % 2 == 1 && bytes.len() + 100 < start {
                    bytes.extend(register_line(99));
                    bytes.push(b'\n');
                }
                bytes.resize(start - 1, b'7');
                bytes.push(b'\n');
                bytes.extend_from_slice(line);
                bytes.extend_from_slice(b"\n0,RD,10\n0,GT\n");
                let name = format!("{} bytes across {bound}, {ahead} ahead", line.len());
                all.push((name, bytes));
            }
        }
    }
    all
}
