//! Lines that cannot be read.

use super::Case;
use crate::damage::{boot_line, damage, register_line, FORMS};
use crate::generate::Line;
use crate::lines::{BOOT, LETTERS};
use crate::random::Random;

/// Lines that cannot be read, by hand.
const UNREADABLE: [&[u8]; 68] = [
    b"",
    b",",
    b"0",
    b"0,",
    b"RD",
    b"RD,0",
    b",RD,0",
    b"0,RD",
    b"0,RD,",
    b"0,RD,0,",
    b"0,RD,0,0",
    b"0,,0",
    b"0,RD,,0",
    b"0,GT,",
    b"0,GT,0",
    b"0,RT,0",
    b"0,WR,0",
    b"0,WR,0,0,0",
    b"0,BT,1,2,3",
    b"0,BT,1,2,3,4",
    b"0,BT,1,2,3,4,128,128,128,128,0,15,0,15,0,15,0",
    b"0,BT,1,2,3,4,128,128,128,128,0,15,0,15,0,15,0,15,0",
    b"0,CR,1,1,21",
    b"0,CR,1,1,21,0,0",
    b"0,RG",
    b"0,RG,1,2,3",
    b"0,RG,1,2,3,4,",
    b"0,RG,1,2,3,4,,5",
    b"0,LO",
    b"0,CA,0",
    b"0,IN,0,0",
    b"0,rd,0",
    b"0,Rd,0",
    b"0,RDX,0",
    b"0,R,0",
    b"0,XX,0",
    b"0, RD,0",
    b"0,RD ,0",
    b"0,RD, 0",
    b"0,RD,0 ",
    b" 0,RD,0",
    b"0 ,RD,0",
    b"0,RD,0\r",
    b"0,GT\r",
    b"0,RD,\t0",
    b"0,RD,+0",
    b"0,RD,-0",
    b"0,RD,-1",
    b"+0,RD,0",
    b"-1,GT",
    b"00,RD,0",
    b"01,GT",
    b"0,RD,00",
    b"0,RD,01",
    b"0,RD,1.0",
    b"0,RD,1e1",
    b"0,RD,0x1",
    b"0,RD,\"0\"",
    b"\"0\",RD,0",
    b"0,\"RD\",0",
    b"0;RD;0",
    b"0,RD,0\0",
    b"\0",
    b"0,RD,18446744073709551616",
    b"18446744073709551616,GT",
    b"0,RD,99999999999999999999999999999999999999999",
    b"0,RD,\xd9\xa0",
    b"\xef\xbb\xbf0,RD,0",
];

/// Lines that cannot be read: each is answered 1 and changes nothing.
pub fn unreadable() -> Vec<Case> {
    let mut cases = vec![by_hand()];
    let mut random = Random::new(7);
    for (letters, count) in LETTERS {
        cases.push(every_form(letters, count, &mut random));
        cases.push(last_call(letters, count));
    }
    let lengths = [1, 199, 200, 201, 202, 4096, 65_536];
    cases.extend(lengths.map(last_bytes));
    cases
}

fn by_hand() -> Case {
    let mut case = Case::new("unreadable lines by hand");
    case.line(BOOT.as_bytes(), "0,0");
    for line in UNREADABLE {
        case.line(line, "1,0");
    }
    for length in [201, 202, 255, 256, 257, 4096, 65_536, 100_000] {
        case.line(&register_line(length), "1,0");
        // Readable at the start, or at the end, but for its length.
        let mut line = b"0,GT".to_vec();
        line.resize(length, b' ');
        case.line(&line, "1,0");
        line.rotate_left(4);
        case.line(&line, "1,0");
    }
    case.line(&register_line(200), "5,0");
    for (length, answer) in [(199, "5,0"), (200, "5,0"), (201, "1,0"), (340, "1,0")] {
        case.line(&boot_line(length), answer);
    }
    case.line(b"0,GT", "0,1,0,0,0");
    case
}

/// A readable line of the call.
fn good(letters: &'static str, count: usize) -> Line {
    let args: Vec<u64> = (1..=count as u64).collect();
    Line::new(0, letters, &args)
}

fn every_form(letters: &'static str, count: usize, random: &mut Random) -> Case {
    let good = good(letters, count);
    let mut case = Case::new(&format!("every unreadable form of {letters}"));
    for form in FORMS {
        for _ in 0..8 {
            case.line(&damage(&good, form, random), "1,0");
        }
    }
    // Only RG is readable with more than its fields.
    for have in (0..20).filter(|&have| have != count) {
        if letters != "RG" || have < count {
            let line = Line::new(0, letters, &vec![1; have]);
            case.line(&line.bytes(), "1,0");
        }
    }
    case.line(b"0,GT", "0,0,0,0");
    case
}

fn last_call(letters: &'static str, count: usize) -> Case {
    let mut case = Case::new(&format!("a last {letters} without its line feed"));
    case.line(b"0,GT", "0,0,0,0");
    case.input.extend(good(letters, count).bytes());
    case.answer("1,0");
    case
}

fn last_bytes(length: usize) -> Case {
    let mut case = Case::new(&format!("a last {length} bytes without their line feed"));
    case.line(BOOT.as_bytes(), "0,0");
    case.input.extend(&register_line(length)[..length]);
    case.answer("1,0");
    case
}
