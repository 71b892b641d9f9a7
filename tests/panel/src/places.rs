//! The places of objects and passwords in the bytes of an image.

use refmonitor::image::{DOMAINS_AT, ESTATE_BYTES, OBJECT_BYTES};
use refmonitor::random::Random;

/// Bytes that hold places of one kind, which are free or used.
#[derive(Clone, Copy)]
pub struct Places {
    start: usize,
    count: usize,
    length: usize,
    /// Where the bytes of a place begin and end that are 0 where it is free.
    used: (usize, usize),
}

impl Places {
    /// The eight places of a domain's estate.
    pub const fn of_estate(domain: usize) -> Self {
        Places {
            start: ESTATE_BYTES * domain,
            count: 8,
            length: OBJECT_BYTES,
            used: (1, 2),
        }
    }

    /// The four places for passwords of the object in a place of an estate.
    pub const fn of_object(domain: usize, place: usize) -> Self {
        Places {
            start: ESTATE_BYTES * domain + OBJECT_BYTES * place + 2,
            count: 4,
            length: 9,
            used: (0, 8),
        }
    }

    /// All of an image: estates, and the passwords of each place in them.
    pub fn all() -> Vec<Self> {
        let estates = 0..DOMAINS_AT / ESTATE_BYTES;
        let of = |d| (0..8).map(move |place| Places::of_object(d, place));
        let estate = |d| std::iter::once(Places::of_estate(d)).chain(of(d));
        estates.flat_map(estate).collect()
    }

    /// The bytes of the places.
    pub fn bytes(self, image: &mut [u8]) -> &mut [u8] {
        &mut image[self.start..][..self.count * self.length]
    }

    /// The bytes of one place.
    pub fn place(self, image: &mut [u8], place: usize) -> &mut [u8] {
        &mut image[self.start + place * self.length..][..self.length]
    }

    /// Whether something stands in the place.
    pub fn is_used(self, image: &mut [u8], place: usize) -> bool {
        let (start, end) = self.used;
        let place = self.place(image, place);
        place[start..end].iter().any(|&byte| byte != 0)
    }

    /// How many are used.
    pub fn standing(self, image: &mut [u8]) -> usize {
        (0..self.count).filter(|&k| self.is_used(image, k)).count()
    }

    /// Whether places in another order than those of a good image read: objects do
    /// not, and passwords do where all free places stand behind the used ones.
    pub fn read(self, image: &mut [u8], good: &[u8]) -> bool {
        let standing = self.standing(image);
        let first = (0..standing).all(|k| self.is_used(image, k));
        image == good || self.length != OBJECT_BYTES && first
    }

    /// Moves what stands in one place to another; those between move up or down.
    pub fn shift(self, image: &mut [u8], from: usize, to: usize) {
        let (length, bytes) = (self.length, self.bytes(image));
        if from < to {
            bytes[from * length..(to + 1) * length].rotate_left(length);
        } else {
            bytes[to * length..(from + 1) * length].rotate_right(length);
        }
    }

    /// Puts the places in any order.
    pub fn shuffle(self, image: &mut [u8], random: &mut Random) {
        for i in 1..self.count {
            self.shift(image, i, random.index(i + 1));
        }
    }
}
