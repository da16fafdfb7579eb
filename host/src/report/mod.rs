//! What a command prints and keeps.

pub mod came;
mod faults;
pub mod kept;
pub mod rows;
mod tally;
pub mod watch;

pub use faults::Faults;
pub use tally::Tally;
