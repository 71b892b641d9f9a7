//! The refusals that include/reshqobi.h names, all of them and those of each
//! function, stand in the order of their checks; those of a function are the ones
//! that can occur.

use refmonitor::coverage::TABLE;

const HEADER: &str = include_str!("../../../include/reshqobi.h");

/// The refusals in the order of their checks.
const ORDER: [u8; 13] = [2, 13, 4, 5, 6, 7, 8, 9, 14, 15, 10, 11, 12];

/// The numbers behind the word Refusals in the comment that begins with these
/// letters.
fn refusals(letters: &str) -> Vec<u8> {
    let start = format!("/* {letters}: ");
    let (_, comment) = HEADER.split_once(&start).expect("a comment");
    let (comment, _) = comment.split_once("*/").expect("its end");
    let (_, numbers) = comment.split_once("Refusals ").expect("refusals");
    let numbers = numbers.trim().trim_end_matches('.').split(", ");
    numbers.map(|n| n.parse().expect("a number")).collect()
}

/// The numbers that are defined behind DONE, up to a line without one.
fn defined() -> Vec<u8> {
    let lines = HEADER.lines().skip_while(|line| !line.contains("_DONE 0"));
    let number = |line: &str| line.split_whitespace().nth(2)?.parse().ok();
    lines.skip(1).map_while(number).collect()
}

#[test]
fn refusals_are_defined_in_order() {
    assert_eq!(defined(), ORDER);
}

#[test]
fn refusals_stand_beside_the_functions() {
    for (letters, answers) in &TABLE[1..] {
        let occurs = |refusal: &u8| [2, 13].contains(refusal) || answers.contains(refusal);
        let wanted: Vec<u8> = ORDER.into_iter().filter(occurs).collect();
        assert_eq!(refusals(letters), wanted, "{letters}");
        let refusals = answers.iter().filter(|&&answer| answer > 1);
        assert_eq!(wanted.len(), 2 + refusals.count(), "{letters}");
    }
}
