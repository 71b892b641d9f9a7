//! The protection monitor Reshqobi, called through its C functions.
//!
//! A [`Monitor`] owns the image of the state and the store. Each method is one
//! call by one domain; a refused one says why, by a [`Refusal`]. docs/CALLS.md
//! has the calls and what a refused one leaves, docs/IMAGE.md the bytes.
//!
//! ```
//! use reshqobi::{Monitor, Plan, Refusal};
//!
//! let mut monitor = Monitor::new();
//! monitor.boot(0, Plan::ample([11, 12, 13, 14]))?;
//! assert_eq!(monitor.read(1, 2048), Ok(32 * 256 + 15));
//! assert_eq!(monitor.read(0, 2048), Err(Refusal::NotGranted));
//! # Ok::<(), Refusal>(())
//! ```

mod calls;
mod monitor;
mod plan;
mod refusal;
pub mod sys;
mod values;

pub use monitor::Monitor;
pub use plan::Plan;
pub use refusal::Refusal;
pub use values::Slots;

/// The lengths in bytes of the three slices.
pub const IMAGE_BYTES: usize = 3592;
pub const STORE_BYTES: usize = 65536;
pub const VALUES_BYTES: usize = 88;

/// The words of the store, and the values, each of 8 bytes.
pub const STORE_WORDS: usize = 8192;
pub const VALUES: usize = 11;

/// The answer of a done call.
pub const DONE: u64 = 0;

/// The whole lock, as the slot of [`Monitor::lock`].
pub const WHOLE_LOCK: u64 = 255;

/// A capability for a Clist: a page and a password.
#[derive(Clone, Copy, Debug, PartialEq, Eq)]
pub struct Capability {
    pub page: u64,
    pub password: u64,
}
