//! What the coverage table counts of bans.

use refmonitor::coverage::{Coverage, BANS, BANS_ASIDE, BAN_CHANGES};

/// Domain 0 owns page 1 and page 2; the password 22 denies R on page 1.
const LINES: &[u8] = b"0,BT,11,12,13,14,128,128,128,128,0,15,0,15,0,15,0,15
0,CR,1,1,21,0
0,CR,2,1,31,0
0,WR,2,256
0,WR,3,21
0,WR,4,512
0,WR,5,31
0,AP,1,22,129
0,WR,6,256
0,WR,7,22
0,RD,64
0,LK,64,3
0,DP,1,22
0,WR,7,0
0,WR,128,256
0,WR,129,22
0,RD,64
0,IN,1,2,31
0,RD,64
0,RM,1
0,IN,0,2,31
0,RD,64
0,DP,2,31
0,RD,64
";

/// Those that occur, and how often.
const COUNTS: [(&str, u64); 14] = [
    ("refused by a ban behind, in the same list", 3),
    ("refused by a ban in a later slot", 1),
    ("refused by a ban in an earlier slot", 1),
    ("RD refused by a ban behind", 2),
    ("LK refused by a ban behind", 1),
    ("owner's call refused by a ban behind", 1),
    ("refused by a part of a ban behind", 2),
    ("granted, a ban in a slot without its object's password", 1),
    ("granted, a ban on another object", 1),
    ("WR brings a ban", 1),
    ("WR takes a ban away", 1),
    ("IN brings a ban", 2),
    ("RM takes a ban away", 1),
    ("DP of a list's password takes a ban away", 1),
];

#[test]
fn each_is_counted_where_it_occurs() {
    let mut coverage = Coverage::new();
    coverage.run(LINES);
    let groups = [BANS, BANS_ASIDE, BAN_CHANGES];
    let names: Vec<&str> = groups.iter().copied().flatten().map(|s| s.0).collect();
    for name in &names {
        let counted = COUNTS.iter().find(|(counted, _)| counted == name);
        let wanted = counted.map_or(0, |(_, times)| *times);
        assert_eq!(coverage.situation(name), wanted, "{name}");
    }
    assert!(COUNTS.iter().all(|(name, _)| names.contains(name)));
}
