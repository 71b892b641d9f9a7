//! A state in which each of the sixteen calls is done.

use refmonitor::lines::calls;
use refmonitor::monitor::{Call, Monitor};

/// Domain 0 owns pages 0 and 1, page 1 is a procedure, and domain 0 has
/// entered it. Its home is on account 3, whose limit is met, and domain 0 alone
/// may charge every account.
const LINES: &[u8] = b"0,BT,11,12,13,14,128,31,4,1,3,15,0,1,1,3,2,12
0,CR,1,1,21,2
0,WR,2,256
0,WR,3,21
0,AP,1,22,1
0,RG,1,23,0,11,64
0,WR,4,256
0,WR,5,23
0,CA,64,0
";

/// One call of each kind. CR meets the limit of account 1.
const CALLS: &[u8] = b"0,BT,15,16,17,18,1,2,128,127,1,2,1,15,0,1,3,12
0,RD,3
0,WR,9,5
0,EX,7
0,LK,64,15
0,CR,2,30,30,1
0,DL,1
0,AP,1,24,1
0,DP,1,22
0,RG,0,25,0,11,5
0,IN,1,0,11
0,RM,1
0,GT
0,LO,0
0,CA,64,0
0,RT
";

/// The state.
pub fn stage() -> Monitor {
    let mut monitor = Monitor::new();
    for (domain, call) in calls(LINES) {
        monitor.call(domain, &call).expect("done on the stage");
    }
    monitor
}

/// A call of each kind, by domain 0; on the stage each is done.
pub fn sixteen() -> Vec<Call> {
    calls(CALLS).into_iter().map(|(_, call)| call).collect()
}

#[test]
fn each_call_is_done_on_the_stage() {
    assert_eq!((calls(LINES).len(), sixteen().len()), (9, 16));
    assert_eq!(stage().figures(), [1, 1, 2, 1]);
    for call in sixteen() {
        assert!(stage().call(0, &call).is_ok(), "{call:?}");
    }
}
