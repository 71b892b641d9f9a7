//! Comparing another implementation with this one, to the byte.

mod difference;
mod program;
mod reference;
mod report;
mod search;
mod shrink;

pub use difference::{differ, in_form, line_count, Difference, Other};
pub use program::{run_program, Feed, Ran};
pub use reference::{Reference, ANSWERS, FIGURES, OBJECTS};
pub use report::report;
pub use search::{search, Compared, Plan};
pub use shrink::shortest;
