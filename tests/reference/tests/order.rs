//! What the coverage table counts of the order of objects and passwords.

use refmonitor::coverage::{Coverage, ORDER};

/// Page 3 has the passwords 21 to 24, and pages 0 and 9 stand around it.
const LINES: &[u8] = b"0,BT,11,12,13,14,128,128,128,128,0,15,0,15,0,15,0,15
0,CR,9,1,29,0
0,CR,3,1,21,0
0,WR,2,768
0,WR,3,21
0,AP,3,22,1
0,AP,3,23,1
0,AP,3,24,1
0,DP,3,22
0,AP,3,22,1
0,DP,3,22
0,AP,3,25,1
0,AP,3,25,1
0,DL,3
0,DL,0
0,CR,0,1,11,0
0,CR,0,1,11,0
";

/// Those that occur, and how often.
const COUNTS: [(&str, u64); 15] = [
    ("CR in front of the estate's objects", 1),
    ("CR between two objects", 1),
    ("CR behind the estate's objects", 1),
    ("DL of the estate's first object", 1),
    ("DL of an object between two", 1),
    ("DP of a password between two", 1),
    ("DP of the newest password", 1),
    ("DP between, of four", 1),
    ("DP of the newest of four", 1),
    ("AP behind a drop between two", 1),
    ("AP behind a drop of the newest", 1),
    ("AP of a dropped password", 1),
    ("AP of the fourth password behind a drop", 1),
    ("AP of a password below the newest", 1),
    ("AP of a password above the newest", 4),
];

#[test]
fn each_is_counted_where_it_occurs() {
    let mut coverage = Coverage::new();
    coverage.run(LINES);
    for (name, _) in ORDER {
        let counted = COUNTS.iter().find(|(counted, _)| counted == name);
        let wanted = counted.map_or(0, |(_, times)| *times);
        assert_eq!(coverage.situation(name), wanted, "{name}");
    }
    let names: Vec<&str> = ORDER.iter().map(|(name, _)| *name).collect();
    assert!(COUNTS.iter().all(|(name, _)| names.contains(name)));
    // What does not occur is missing.
    let missing = coverage.missing();
    let told = names
        .iter()
        .filter(|name| missing.contains(&name.to_string()));
    assert_eq!(told.count(), ORDER.len() - COUNTS.len());
}
