//! The image by docs/IMAGE.md: before a boot, after one, and over generated runs.

use refmonitor::image::{decode, encode, IMAGE_BYTES};
use refmonitor::inputs;
use refmonitor::lines::calls;
use refmonitor::monitor::*;

/// Bytes at an offset.
type Piece<'a> = (usize, &'a [u8]);

fn image(pieces: &[Piece]) -> Vec<u8> {
    let mut image = vec![0; IMAGE_BYTES];
    for (at, bytes) in pieces {
        image[*at..at + bytes.len()].copy_from_slice(bytes);
    }
    image
}

#[test]
fn zeros_are_the_state_before_a_boot() {
    assert_eq!(decode(&[0; IMAGE_BYTES]), Some(Monitor::new()));
    assert_eq!(encode(&Monitor::new()), [0; IMAGE_BYTES]);
}

#[test]
fn other_lengths_do_not_read() {
    for length in [0, 1, IMAGE_BYTES - 1, IMAGE_BYTES + 1, 2 * IMAGE_BYTES] {
        assert_eq!(decode(&vec![0; length]), None, "{length}");
    }
}

/// The image of `0,BT,11,12,13,14,4,5,128,2,1,2,0,1,3,15,3,8`.
#[test]
fn a_boot_by_hand() {
    let home = |word: u8, page: u8| [page, 1, word, 0, 0, 0, 0, 0, 0, 0, 15];
    let slot = |word: u8, page: u8| [page, word, 0, 0, 0, 0, 0, 0, 0];
    let by_hand = image(&[
        (0, &home(11, 0)),
        (64, &[1]),
        (520, &home(12, 32)),
        (1040, &home(13, 64)),
        (1104, &[3]),
        (1560, &home(14, 96)),
        (1624, &[3]),
        (2080, &slot(11, 0)),
        (2152, &[1]),
        (2456, &slot(12, 32)),
        (2528, &[1]),
        (2832, &slot(13, 64)),
        (2904, &[1]),
        (3208, &slot(14, 96)),
        (3280, &[1]),
        (3584, &[4, 5, 128, 2]),
        (3588, &[2, 1, 15, 8]),
    ]);
    let mut monitor = Monitor::new();
    let boot = calls(b"0,BT,11,12,13,14,4,5,128,2,1,2,0,1,3,15,3,8\n");
    monitor.call(0, &boot[0].1).unwrap();
    assert_eq!(decode(&by_hand).unwrap().objects, monitor.objects);
    assert_eq!(encode(&monitor), by_hand);
}

/// Word 0 may be an entry, also more than once, and no entries are too few.
#[test]
fn entries_of_zero() {
    for count in 0..=5 {
        let image = image(&[(0, &[0, 1]), (38, &[5]), (55, &[count])]);
        let entries = decode(&image).map(|state| {
            let registration = state.objects[0].registration.as_ref();
            registration.unwrap().entries.clone()
        });
        let wanted = (1..=4).contains(&count);
        assert_eq!(entries, wanted.then(|| vec![0; count.into()]), "{count}");
    }
}

/// Every state of generated runs is written and read as itself.
#[test]
fn generated_states() {
    for seed in 200..206 {
        let mut monitor = Monitor::new();
        for (domain, call) in calls(&inputs::input(seed, 2_000)) {
            let _ = monitor.call(domain, &call);
            let again = decode(&encode(&monitor)).expect("an image that reads");
            let objects: Vec<&Object> = again.objects.iter().collect();
            assert_eq!(objects, monitor.by_base(), "{call:?} by {domain}");
            assert_eq!(again.domains, monitor.domains, "{call:?} by {domain}");
            let (limits, sets) = (again.limits, again.sets);
            assert_eq!((limits, sets), (monitor.limits, monitor.sets));
        }
    }
}

/// An image by the lines that lead to it: objects made in any order lie by rising
/// base, a dropped password leaves no gap, and a new one comes behind the others.
#[test]
fn an_order_by_hand() {
    let lines = b"0,BT,11,12,13,14,128,128,128,128,0,15,0,15,0,15,0,15
0,CR,9,1,21,0
0,CR,3,2,22,1
0,CR,6,1,23,2
0,WR,2,1536
0,WR,3,23
0,AP,6,24,1
0,AP,6,25,2
0,DP,6,24
0,AP,6,26,4
0,AP,6,24,8
0,WR,4,768
0,WR,5,22
0,DL,3
0,CR,2,1,27,3
";
    let mut monitor = Monitor::new();
    for (domain, call) in calls(lines) {
        monitor.call(domain, &call).unwrap();
    }
    let estate = image(&[
        (0, &[0, 1, 11, 0, 0, 0, 0, 0, 0, 0, 15]),
        (65, &[2, 1, 27, 0, 0, 0, 0, 0, 0, 0, 15]),
        (129, &[3]),
        (130, &[6, 1, 23, 0, 0, 0, 0, 0, 0, 0, 15]),
        (141, &[25, 0, 0, 0, 0, 0, 0, 0, 2]),
        (150, &[26, 0, 0, 0, 0, 0, 0, 0, 4]),
        (159, &[24, 0, 0, 0, 0, 0, 0, 0, 8]),
        (194, &[2]),
        (195, &[9, 1, 21, 0, 0, 0, 0, 0, 0, 0, 15]),
    ]);
    assert_eq!(encode(&monitor)[..520], estate[..520]);
}
