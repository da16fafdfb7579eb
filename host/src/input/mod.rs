//! What is given to the calls: tables and listings, made and changed.

pub mod buckets;
pub mod changes;
pub mod draft;
pub mod edits;
pub mod hashes;
pub mod join;
pub mod ladders;
pub mod large;
