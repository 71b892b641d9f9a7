//! What is checked of a way of calling; an error says what is wrong.

mod beside;
mod boots;
mod charges;
mod copied;
mod displaced;
mod flipped;
mod lengths;
mod state;
mod unreadable;

pub use beside::{play, play_displaced, Beside};
pub use boots::boots;
pub use charges::{charges, Charges};
pub use copied::copied;
pub use displaced::displaced;
pub use flipped::{flipped, Flipped};
pub use lengths::lengths;
pub use state::same_state;
pub use unreadable::unreadable;

use crate::slices::{Panel, Slices};
use refmonitor::monitor::Call;
use reshqobi::VALUES_BYTES;

/// One call whose answer, values, image and store are known beforehand.
fn known(
    slices: &mut Slices,
    panel: Panel,
    (domain, call): (u64, &Call),
    answer: u64,
    values: &[u8],
    after: &Slices,
) -> Result<(), String> {
    let number = slices.call(panel, domain, call)?;
    let what = if number != answer {
        Some(format!("answer {number}, not {answer}"))
    } else if slices.values.bytes() != values {
        Some(format!(
            "values {:?}, not {values:?}",
            slices.values.bytes()
        ))
    } else {
        slices.changed(after).map(String::from)
    };
    match what {
        Some(what) => Err(format!("{call:?} by {domain}: {what}")),
        None => Ok(()),
    }
}

/// A call that is refused, with values of the right length.
fn refused(
    slices: &mut Slices,
    panel: Panel,
    call: (u64, &Call),
    answer: u64,
) -> Result<(), String> {
    let before = slices.clone();
    known(slices, panel, call, answer, &[0; VALUES_BYTES], &before)
}
