//! A call line in parts.

use crate::monitor::DOMAINS;

/// A boot's arguments behind the home passwords: limits of 128, then account 0
/// and a set of 15 for each domain.
pub const AMPLE: [u64; 12] = [128, 128, 128, 128, 0, 15, 0, 15, 0, 15, 0, 15];

/// A call line in parts.
#[derive(Clone, Debug)]
pub struct Line {
    pub domain: u64,
    pub letters: &'static str,
    pub args: Vec<u64>,
}

impl Line {
    pub fn new(domain: u64, letters: &'static str, args: &[u64]) -> Self {
        Line {
            domain,
            letters,
            args: args.to_vec(),
        }
    }

    /// A boot with ample accounts.
    pub fn boot(domain: u64, homes: [u64; DOMAINS]) -> Self {
        let args = [&homes[..], &AMPLE].concat();
        Line::new(domain, "BT", &args)
    }

    pub fn bytes(&self) -> Vec<u8> {
        self.fields().join(",").into_bytes()
    }

    pub fn fields(&self) -> Vec<String> {
        let mut fields = vec![self.domain.to_string(), self.letters.to_string()];
        fields.extend(self.args.iter().map(u64::to_string));
        fields
    }
}
