//! Calls on the full state whose cost is counted.

use crate::full::full;
#[cfg(test)]
use crate::slices::real;
use crate::slices::Slices;
use refmonitor::image::{encode, store_bytes};
use refmonitor::lines;
use refmonitor::monitor::Call;

/// What is wrong with the image, if anything.
pub enum Image {
    Full,
    /// It is one byte short.
    Short,
    /// Its last byte, the set of domain 3, is 16.
    Last,
}

/// Calls that are counted by themselves: a name, a title, the image, the lines
/// that follow one another over and over, and the answer to each.
pub struct Kind {
    pub name: &'static str,
    pub title: &'static str,
    image: Image,
    lines: &'static [u8],
    pub answer: u64,
}

const fn kind(
    name: &'static str,
    title: &'static str,
    image: Image,
    lines: &'static [u8],
    answer: u64,
) -> Kind {
    Kind {
        name,
        title,
        image,
        lines,
        answer,
    }
}

/// Page 28 is the last object of domain 0, with the password 1280, on account 2.
#[rustfmt::skip]
pub const KINDS: [Kind; 10] = [
    kind("short", "GT, an image one byte short, refused by 13", Image::Short, b"0,GT\n", 13),
    kind("last", "GT, the last byte of the image does not read, refused by 13", Image::Last, b"0,GT\n", 13),
    kind("domain", "RD by domain 4, refused by 4", Image::Full, b"4,RD,0\n", 4),
    kind("gt", "GT", Image::Full, b"0,GT\n", 0),
    kind("first", "RD granted by the first pair", Image::Full, b"0,RD,0\n", 0),
    kind("seventh", "RD granted by the seventh slot's pair", Image::Full, b"0,RD,1536\n", 0),
    kind("wr", "WR granted by the first pair", Image::Full, b"0,WR,9,5\n", 0),
    kind("lo", "LO of the whole domain", Image::Full, b"0,LO,255\n", 0),
    kind("rm", "RM and IN of the last slot, by turns", Image::Full, b"0,RM,7\n0,IN,7,28,1280\n", 0),
    kind("cr", "DL and CR of four pages, by turns", Image::Full, b"0,DL,28\n0,CR,28,4,1280,2\n", 0),
];

impl Kind {
    pub fn calls(&self) -> Vec<(u64, Call)> {
        lines::calls(self.lines)
    }

    /// The full state, with the image of the kind.
    pub fn slices(&self) -> Slices {
        let full = full();
        let mut image = encode(&full);
        match self.image {
            Image::Full => {}
            Image::Short => drop(image.pop()),
            Image::Last => *image.last_mut().expect("bytes") = 16,
        }
        Slices::new(&image, &store_bytes(&full.store))
    }
}

#[test]
fn each_kind_gives_its_answer() {
    for kind in KINDS {
        let (mut slices, calls) = (kind.slices(), kind.calls());
        let lines = kind.lines.iter().filter(|&&byte| byte == b'\n');
        assert_eq!(calls.len(), lines.count(), "{}", kind.name);
        for (domain, call) in calls.iter().cycle().take(4) {
            let answer = real(&mut slices, *domain, call);
            assert_eq!(answer, kind.answer, "{}: {call:?}", kind.name);
        }
    }
}
