//! The answers that can occur.

use crate::lines::LETTERS;

/// Stands for the letters of a line that has none of the sixteen.
pub const NO_LETTERS: &str = "--";

/// Every answer that each call can get by the paper. Answers 2 and 3 cannot
/// occur in the program: its store has the right length and its state is sound.
///
/// - Every call can stand in a line that is not readable (1), and can come
///   from a domain above 3 (4).
/// - GT and RT have no arguments, so no range to break (5).
/// - IN and RM alone are stopped by a lock of slots, and IN, RM, CA, AP and RG
///   alone by the whole lock (6).
/// - CR, IN, RM, GT, LO, RT and BT want no rights; of these IN alone presents
///   a capability (7).
/// - CA and RG alone have entries to miss (8), CR alone a place (9), AP and RG
///   alone a password to repeat (10).
/// - CR alone charges an account (14 and 15, right behind 9).
/// - Full (11): CR, AP, RG, IN, CA. Nothing there (12): IN, RM, LO, DP, RT.
pub const TABLE: [(&str, &[u8]); 17] = [
    (NO_LETTERS, &[1]),
    ("BT", &[0, 1, 4, 5]),
    ("RD", &[0, 1, 4, 5, 7]),
    ("WR", &[0, 1, 4, 5, 7]),
    ("EX", &[0, 1, 4, 5, 7]),
    ("LK", &[0, 1, 4, 5, 7]),
    ("CR", &[0, 1, 4, 5, 9, 11, 14, 15]),
    ("DL", &[0, 1, 4, 5, 7]),
    ("AP", &[0, 1, 4, 5, 6, 7, 10, 11]),
    ("DP", &[0, 1, 4, 5, 7, 12]),
    ("RG", &[0, 1, 4, 5, 6, 7, 8, 10, 11]),
    ("IN", &[0, 1, 4, 5, 6, 7, 11, 12]),
    ("RM", &[0, 1, 4, 5, 6, 12]),
    ("GT", &[0, 1, 4]),
    ("LO", &[0, 1, 4, 5, 12]),
    ("CA", &[0, 1, 4, 5, 6, 7, 8, 11]),
    ("RT", &[0, 1, 4, 12]),
];

/// Every pair of call and answer that can occur.
pub fn pairs() -> Vec<(&'static str, u8)> {
    TABLE
        .iter()
        .flat_map(|&(letters, answers)| answers.iter().map(move |&a| (letters, a)))
        .collect()
}

/// The call letters of a line, readable or not.
pub fn letters_of(line: &[u8]) -> &'static str {
    let second = line.split(|&b| b == b',').nth(1).unwrap_or(b"");
    LETTERS
        .iter()
        .map(|&(letters, _)| letters)
        .find(|letters| letters.as_bytes() == second)
        .unwrap_or(NO_LETTERS)
}
