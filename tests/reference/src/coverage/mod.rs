//! Which answers can occur, which situations and bounds a run comes to, and
//! counters of all three.

mod bounds;
mod charges;
mod count;
mod gaps;
mod restored;
mod seen;
mod situations;
mod table;

pub use bounds::BOUNDS;
pub use charges::{Charges, Deletion};
pub use count::Coverage;
pub use gaps::Gaps;
pub use restored::Restored;
pub use seen::Seen;
pub use situations::{situations, Situation, BANS, BANS_ASIDE, BAN_CHANGES, ORDER};
pub use table::{letters_of, pairs, NO_LETTERS, TABLE};
