//! The C functions beside the second implementation.

mod answer;
mod client;
mod guarded;
mod places;
mod raw;
mod slices;

pub mod checks;
pub mod fenced;
pub mod full;
pub mod kinds;
pub mod stage;

pub use answer::{expected, number};
pub use client::answer;
pub use guarded::Guarded;
pub use places::Places;
pub use raw::raw;
pub use slices::{real, Panel, Slices, UNTOUCHED};
