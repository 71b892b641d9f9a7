//! The monitor as a Rust value: its bytes, its words, its answers.

use reshqobi::*;

fn booted() -> Monitor {
    let mut monitor = Monitor::new();
    monitor.boot(0, Plan::ample([11, 12, 13, 14])).unwrap();
    monitor
}

#[test]
fn words_lie_with_the_lowest_byte_first() {
    let mut monitor = booted();
    monitor.write(0, 63, 0x0102_0304_0506_0708).unwrap();
    assert_eq!(monitor.store()[63 * 8..64 * 8], [8, 7, 6, 5, 4, 3, 2, 1]);
    assert_eq!(monitor.word(63), Some(0x0102_0304_0506_0708));
    assert_eq!(monitor.word(8191), Some(0));
    let outside = [8192, 1 << 60, 1 << 61, u64::MAX];
    assert_eq!(outside.map(|address| monitor.word(address)), [None; 4]);
}

#[test]
fn a_copy_lives_by_itself() {
    let mut monitor = booted();
    let copy = monitor.clone();
    assert_eq!(monitor, copy);
    monitor.write(0, 9, 1).unwrap();
    assert_ne!(monitor, copy);
    monitor.write(0, 9, 0).unwrap();
    assert_eq!(monitor, copy);
    monitor.lock(0, 0).unwrap();
    assert_ne!(monitor, copy);
    assert_ne!(copy, Monitor::new());
    assert_eq!(Monitor::default(), Monitor::new());
}

#[test]
fn from_bytes_takes_what_reads() {
    let monitor = booted();
    let (image, store) = (monitor.image(), monitor.store());
    assert_eq!(Monitor::from_bytes(image, store), Ok(monitor.clone()));
    let short = Monitor::from_bytes(&image[1..], &store[1..]);
    assert_eq!(short, Err(Refusal::StoreLength));
    let short = Monitor::from_bytes(&image[1..], store);
    assert_eq!(short, Err(Refusal::Unreadable));
    // The last depth, the first limit and the last set, each above its bound.
    for (at, byte) in [(3583, 5), (3584, 129), (IMAGE_BYTES - 1, 16)] {
        let mut image = *image;
        image[at] = byte;
        let wrong = Monitor::from_bytes(&image, store);
        assert_eq!(wrong, Err(Refusal::Unreadable), "{byte} at {at}");
    }
}

#[test]
fn slots_and_locks() {
    let mut monitor = Monitor::new();
    let slots = |pages: &[u64], locked, whole| {
        let pages = pages.to_vec();
        Ok(Slots {
            pages,
            locked,
            whole,
        })
    };
    assert_eq!(monitor.get(3), slots(&[], 0, false));
    monitor.boot(3, Plan::ample([11, 12, 13, 14])).unwrap();
    let home = Capability {
        page: 32,
        password: 12,
    };
    monitor.insert(3, 1, home).unwrap();
    assert_eq!(monitor.get(3), slots(&[96, 32], 0, false));
    monitor.lock(3, 0).unwrap();
    monitor.lock(3, WHOLE_LOCK).unwrap();
    assert_eq!(monitor.get(3), slots(&[96, 32], 1, true));
    assert_eq!(monitor.remove(3, 1), Err(Refusal::Locked));
    assert_eq!(monitor.add_password(3, 96, 5, 1), Err(Refusal::Locked));
    assert_eq!(
        monitor.register(3, 96, 5, home, &[6144]),
        Err(Refusal::Locked)
    );
    assert_eq!(monitor.drop_password(3, 96, 5), Err(Refusal::Missing));
    assert_eq!(monitor.get(4), Err(Refusal::NoDomain));
}

/// RG with more entries than there is room for is refused, and not cut short.
#[test]
fn entries_are_counted() {
    let mut monitor = booted();
    let list = Capability {
        page: 0,
        password: 11,
    };
    for count in [0, 5, 6] {
        let answer = monitor.register(0, 0, 5, list, &vec![1; count]);
        assert_eq!(answer, Err(Refusal::OutOfRange), "{count}");
    }
    assert_eq!(monitor.register(0, 0, 5, list, &[1, 2, 3, 63]), Ok(()));
}
