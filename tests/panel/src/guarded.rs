//! Bytes that are lent to a C function, between guard bytes.

/// How many guard bytes stand on each side. The number is odd, so the bytes
/// between them lie at an odd address.
const GUARD: usize = 61;
const MARK: u8 = 0xa5;

#[derive(Clone)]
pub struct Guarded {
    all: Vec<u8>,
}

impl Guarded {
    pub fn new(bytes: &[u8]) -> Self {
        let guard = [MARK; GUARD];
        Guarded {
            all: [&guard, bytes, &guard].concat(),
        }
    }

    pub fn bytes(&self) -> &[u8] {
        &self.all[GUARD..self.all.len() - GUARD]
    }

    pub fn bytes_mut(&mut self) -> &mut [u8] {
        let end = self.all.len() - GUARD;
        &mut self.all[GUARD..end]
    }

    /// The guard bytes themselves, those before and those behind.
    pub fn guards_mut(&mut self) -> [&mut [u8]; 2] {
        let end = self.all.len() - GUARD;
        let (before, behind) = self.all.split_at_mut(end);
        [&mut before[..GUARD], behind]
    }

    /// Whether the guard bytes are as they were.
    pub fn kept(&self) -> bool {
        let (before, rest) = self.all.split_at(GUARD);
        let behind = &rest[rest.len() - GUARD..];
        [before, behind].concat().iter().all(|&byte| byte == MARK)
    }

    /// The pointer, which may be used within the guard bytes too, and the length.
    pub fn lent(&mut self) -> (*mut u8, usize) {
        let length = self.bytes().len();
        // SAFETY: the guard bytes lie before that place.
        (unsafe { self.all.as_mut_ptr().add(GUARD) }, length)
    }
}
