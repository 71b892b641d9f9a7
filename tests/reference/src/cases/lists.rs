//! Clists that fill their objects, of one page and of two.

use super::Case;
use crate::lines::BOOT;

pub(super) fn lists() -> Vec<Case> {
    vec![full_page(), second_page(), last_ban(), ban_beyond()]
}

/// A case's lines, each with its answer and value.
fn add(case: &mut Case, lines: &[(&str, &str)]) {
    for (line, answer) in lines {
        case.line(line.as_bytes(), answer);
    }
}

/// Page 1 and so many pages, which domain 0 owns and has in slot 1.
fn list_of(name: &str, pages: u64) -> Case {
    let mut case = Case::new(name);
    case.line(BOOT.as_bytes(), "0,0");
    case.line(format!("0,CR,1,{pages},21,0").as_bytes(), "0,0");
    add(
        &mut case,
        &[
            ("0,WR,2,256", "0,0"),
            ("0,WR,3,21", "0,0"),
            ("0,IN,1,1,21", "0,0"),
        ],
    );
    case
}

/// The pairs from one address to before another get one word each, by turns
/// the first and the second.
fn fill(case: &mut Case, from: u64, to: u64) {
    for at in (from..to).step_by(2) {
        let word = if at % 4 == 0 { at } else { at + 1 };
        case.line(format!("0,WR,{word},1280").as_bytes(), "0,0");
    }
}

/// A Clist without a zero pair ends with its object.
fn full_page() -> Case {
    let mut case = list_of("end: a list that fills its page", 1);
    add(
        &mut case,
        &[
            ("0,WR,126,8192", "0,0"),
            ("0,WR,127,12", "0,0"),
            ("0,LK,2048,15", "7,0"),
        ],
    );
    fill(&mut case, 64, 124);
    case.line(b"0,LK,2048,15", "7,0");
    fill(&mut case, 124, 126);
    add(
        &mut case,
        &[
            ("0,LK,2048,15", "0,126"),
            ("0,RD,2048", "0,8207"),
            // The page behind it is no part of it.
            ("0,CR,2,1,31,0", "0,0"),
            ("0,WR,4,512", "0,0"),
            ("0,WR,5,31", "0,0"),
            ("0,WR,128,16384", "0,0"),
            ("0,WR,129,13", "0,0"),
            ("0,RD,4096", "7,0"),
            ("0,IN,2,2,31", "0,0"),
            ("0,LK,4096,15", "0,128"),
            // A zero pair in its midst.
            ("0,WR,96,0", "0,0"),
            ("0,LK,2048,15", "7,0"),
            ("0,LK,4096,15", "0,128"),
            ("0,WR,97,1", "0,0"),
            ("0,LK,2048,15", "0,126"),
        ],
    );
    case
}

/// The end in the first page, in the second, and none.
fn second_page() -> Case {
    let mut case = list_of("end: a list of two pages", 2);
    fill(&mut case, 64, 126);
    add(
        &mut case,
        &[
            ("0,WR,128,8192", "0,0"),
            ("0,WR,129,12", "0,0"),
            ("0,WR,132,16384", "0,0"),
            ("0,WR,133,13", "0,0"),
            // The last pair of the first page is zero.
            ("0,LK,2048,15", "7,0"),
            ("0,WR,127,1", "0,0"),
            ("0,LK,2048,15", "0,128"),
            ("0,LK,4096,15", "7,0"),
            ("0,WR,130,1", "0,0"),
            ("0,LK,4096,15", "0,132"),
        ],
    );
    fill(&mut case, 134, 190);
    add(
        &mut case,
        &[
            ("0,WR,190,24576", "0,0"),
            ("0,WR,191,14", "0,0"),
            ("0,LK,6144,15", "0,190"),
            ("0,RD,6144", "0,24591"),
            // A page number that is cut short is another one.
            ("0,WR,190,90112", "0,0"),
            ("0,RD,6144", "7,0"),
            ("0,WR,190,18446744073709551615", "0,0"),
            ("0,RD,190", "0,18446744073709551615"),
            ("0,EX,190", "0,190"),
        ],
    );
    case
}

/// A ban in the last pair of a Clist that fills its page.
fn last_ban() -> Case {
    let mut case = list_of("ban: in the last pair of a full list", 1);
    fill(&mut case, 64, 126);
    add(
        &mut case,
        &[
            ("1,AP,32,40,129", "0,0"),
            ("0,WR,4,8192", "0,0"),
            ("0,WR,5,12", "0,0"),
            ("0,LK,2048,15", "0,4"),
            ("0,WR,126,8192", "0,0"),
            ("0,WR,127,40", "0,0"),
            ("0,LK,2048,15", "7,0"),
            ("0,LK,2048,14", "0,4"),
            // Behind an end.
            ("0,WR,96,0", "0,0"),
            ("0,LK,2048,15", "0,4"),
        ],
    );
    case
}

/// Bans in the second page of a Clist.
fn ban_beyond() -> Case {
    let mut case = list_of("ban: beyond the first page of a list", 2);
    fill(&mut case, 64, 128);
    add(
        &mut case,
        &[
            ("1,AP,32,40,129", "0,0"),
            ("0,WR,4,8192", "0,0"),
            ("0,WR,5,12", "0,0"),
            ("0,WR,128,8192", "0,0"),
            ("0,WR,129,40", "0,0"),
            ("0,RD,2048", "7,0"),
            ("0,LK,2048,14", "0,4"),
            ("0,WR,129,0", "0,0"),
            ("0,RD,2048", "0,8207"),
        ],
    );
    fill(&mut case, 130, 190);
    add(
        &mut case,
        &[
            ("0,WR,190,8192", "0,0"),
            ("0,WR,191,40", "0,0"),
            ("0,RD,2048", "7,0"),
            ("0,LK,2048,14", "0,4"),
            // Behind an end.
            ("0,WR,128,0", "0,0"),
            ("0,RD,2048", "0,8207"),
        ],
    );
    case
}
