//! The calls of the proved library, with scratch that is looked at after each.

#[cfg(before)]
mod before;
mod canon;
mod form;
mod library;
mod outcome;
mod recheck;
mod scratch;

pub use canon::Canon;
pub use library::Library;
pub use outcome::{refused, Outcome, Refused};
pub use recheck::{Input, Recheck};
pub use scratch::Checked;

/// What the programs lend as output.
pub const OUTPUT: usize = 65_536;
