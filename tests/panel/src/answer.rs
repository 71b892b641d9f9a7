//! What comes back for an outcome of the second implementation.

use refmonitor::monitor::{Done, Outcome};
use reshqobi::{DONE, VALUES_BYTES};

/// The answer number.
pub fn number(outcome: &Outcome) -> u64 {
    match outcome {
        Ok(_) => DONE,
        Err(refusal) => *refusal as u64,
    }
}

/// The answer number and the bytes of the values: the fields of GT or the one
/// value from the start, and zeros behind them; on a refusal zeros alone.
pub fn expected(outcome: &Outcome) -> (u64, [u8; VALUES_BYTES]) {
    let mut values = [0; VALUES_BYTES];
    let fields = match outcome {
        Ok(Done::Value(value)) => vec![*value],
        Ok(Done::Fields(fields)) => fields.clone(),
        Err(_) => Vec::new(),
    };
    for (field, bytes) in fields.iter().zip(values.chunks_mut(8)) {
        bytes.copy_from_slice(&field.to_le_bytes());
    }
    (number(outcome), values)
}
