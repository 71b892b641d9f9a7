//! Images with other accounts, limits and sets: which of them read, and what CR
//! is answered on those.

use super::{Beside, Flipped};
use crate::slices::{Panel, Slices};
use crate::stage::stage;
use refmonitor::image::{decode, DOMAINS_AT, IMAGE_BYTES, LIMITS_AT, OBJECT_BYTES};
use refmonitor::monitor::{estate, Call, Monitor, DOMAINS, PAGE_WORDS};
use std::collections::BTreeMap;

/// What was met.
#[derive(Default)]
pub struct Charges {
    /// The images that read, and those that do not.
    pub images: Flipped,
    /// Images that read with an account that is charged more than its limit.
    pub above: usize,
    /// How often CR was answered so.
    pub answers: BTreeMap<u64, usize>,
}

/// Where the account of each object stands, in free places too, and the limits
/// and sets.
fn bytes_of_accounts() -> impl Iterator<Item = usize> {
    let objects = (0..DOMAINS_AT).step_by(OBJECT_BYTES);
    objects.map(|at| at + 64).chain(LIMITS_AT..IMAGE_BYTES)
}

/// Counts of pages: one, what the account's limit leaves, and one more.
fn counts(second: &Monitor, account: u64) -> Vec<u64> {
    let limit = second.limits[account as usize];
    let left = limit.saturating_sub(second.charged(account));
    let mut counts = vec![1, left, left + 1];
    counts.dedup();
    counts
}

impl Charges {
    /// CR by each domain on each account, and on one that there is not.
    fn create(&mut self, panel: Panel, slices: &Slices, second: &Monitor) -> Result<(), String> {
        for (domain, above) in (0..4).zip([4, 1 << 8, 1 << 32, 1 << 63]) {
            for account in 0..4 {
                for count in counts(second, account) {
                    self.create_one(panel, slices, second, (domain, count, account))?;
                }
            }
            self.create_one(panel, slices, second, (domain, 1, above))?;
        }
        Ok(())
    }

    fn create_one(
        &mut self,
        panel: Panel,
        slices: &Slices,
        second: &Monitor,
        (domain, count, account): (u64, u64, u64),
    ) -> Result<(), String> {
        let call = Call::Cr {
            page: estate(domain as usize).start + 2,
            count,
            password: 99,
            account,
        };
        let mut beside = Beside::at(panel, slices.clone(), second.clone());
        let answer = beside.call(domain, &call)?;
        *self.answers.entry(answer).or_default() += 1;
        Ok(())
    }

    /// An image that was changed: it reads or not, and if it does, CR.
    fn try_image(&mut self, panel: Panel, slices: Slices, store: &[u64]) -> Result<(), String> {
        self.images.try_image(panel, slices.clone(), store)?;
        let Some(state) = decode(slices.image.bytes()) else {
            return Ok(());
        };
        let store = store.to_vec();
        let second = Monitor { store, ..state };
        let mut accounts = second.figures().into_iter().zip(second.limits);
        self.above += usize::from(accounts.any(|(charged, limit)| charged > limit));
        self.create(panel, &slices, &second)
    }
}

/// The stage, with words that are not 0 where CR makes objects.
fn stage_with_words() -> Monitor {
    let mut stage = stage();
    for domain in 0..DOMAINS {
        let own = estate(domain);
        for address in (own.start + 2) * PAGE_WORDS..own.end * PAGE_WORDS {
            stage.store[address as usize] = address;
        }
    }
    stage
}

/// The stage with each of these bytes in turn at every value.
pub fn charges(panel: Panel) -> Result<Charges, String> {
    let (stage, mut found) = (stage_with_words(), Charges::default());
    let whole = Slices::of(&stage);
    for at in bytes_of_accounts() {
        for byte in 0..=255 {
            let mut slices = whole.clone();
            slices.image.bytes_mut()[at] = byte;
            found
                .try_image(panel, slices, &stage.store)
                .map_err(|what| format!("{byte} at {at}: {what}"))?;
        }
    }
    Ok(found)
}
