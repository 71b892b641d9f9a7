//! What a boot is given.

/// The numbers of a boot. Out of range are a home password of 0, a home account
/// outside its domain's set, and a limit below the home pages on its account.
#[derive(Clone, Copy, Debug, PartialEq, Eq)]
pub struct Plan {
    /// The home password of each domain.
    pub homes: [u64; 4],
    /// The most pages of each account, 1 to 128.
    pub limits: [u64; 4],
    /// The account of each domain's home page, 0 to 3.
    pub accounts: [u64; 4],
    /// The accounts that each domain may charge: 0 to 15, with 2 to the power a
    /// for account a.
    pub sets: [u64; 4],
}

impl Plan {
    /// A plan with ample accounts: limits of 128, every home page on account 0,
    /// and all accounts in each set.
    pub fn ample(homes: [u64; 4]) -> Self {
        Plan {
            homes,
            limits: [128; 4],
            accounts: [0; 4],
            sets: [15; 4],
        }
    }
}
