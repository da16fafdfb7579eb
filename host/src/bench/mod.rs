//! Our time per root beside the Rust's on the same tables, on ladders, and on
//! nodes of one bucket, and on slow tables; canon_numbered's and recheck's beside canon's. Where an
//! earlier library is linked, its time beside ours too.

mod beside;
mod buckets;
pub mod clock;
mod ladders;
pub mod libraries;
mod numbered;
mod parts;
mod processes;
mod slow;
mod subject;
mod touched;

use crate::report::Tally;

pub fn run() -> Tally {
    beside::run();
    println!();
    ladders::run();
    println!();
    buckets::run();
    println!();
    numbered();
    println!();
    slowed();
    println!();
    rechecked()
}

/// The part of ladders alone.
pub fn laddered() -> Tally {
    ladders::run();
    Tally::default()
}

/// The part of buckets alone.
pub fn bucketed() -> Tally {
    buckets::run();
    Tally::default()
}

/// The part of slow tables alone.
pub fn slowed() -> Tally {
    slow::run();
    Tally::default()
}

/// canon_numbered's part alone.
pub fn numbered() -> Tally {
    // The tables are chosen by what the Rust answers.
    timed::on_large_stack(numbered::run);
    Tally::default()
}

/// recheck's part alone.
pub fn rechecked() -> Tally {
    // The tables are chosen by what the Rust answers.
    timed::on_large_stack(touched::run);
    println!();
    processes::run();
    Tally::default()
}
