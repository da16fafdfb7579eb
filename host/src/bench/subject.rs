//! A table of one root that is timed. Its listing is held against the Rust's
//! before that.

use std::time::Duration;

use oracle::{listing, reader, Answer, Form, Table};

use super::beside::rust_listing;
use super::clock::{ratio, told};
use super::libraries;
use crate::calls::Canon;

pub struct Subject {
    pub text: Vec<u8>,
    pub table: Table,
    /// Of its listing.
    pub nodes: usize,
    /// Whether the Rust does. Then its listing is ours.
    pub returns: bool,
}

impl Subject {
    pub fn new(canon: &mut Canon, text: Vec<u8>) -> Self {
        let table = reader::read(&text).expect("it is a table");
        let ours = libraries::listing(canon, &text).expect("its listing fits");
        let theirs = of_rust(&table);
        if theirs.is_some() {
            assert_eq!(theirs.as_ref(), Some(&ours), "ours is the Rust's listing");
            assert_eq!(rust_listing(&text), theirs, "so does what is timed answer");
        }
        Subject {
            text,
            table,
            // Its lines but for `answers` and the root's.
            nodes: ours.split(|&b| b == b'\n').count() - 3,
            returns: theirs.is_some(),
        }
    }

    /// Its entries and its nodes.
    pub fn sizes(&self) -> [String; 2] {
        [self.table.entries.len(), self.nodes].map(|size| size.to_string())
    }
}

/// The Rust's listing where the oracle says that it returns: the text that is
/// timed has no limit.
fn of_rust(table: &Table) -> Option<Vec<u8>> {
    let answers = oracle::answers_of(Form::Plain, table).ok()?;
    let mut roots = answers.iter();
    let returns = roots.all(|root| matches!(root.answer, Answer::Shown(_)));
    returns.then(|| listing::write(Form::Plain, &answers))
}

/// The Rust's time, and ours beside it.
pub fn beside_rust(ours: Duration, rust: Option<Duration>) -> [String; 2] {
    let (rust, beside) = match rust {
        Some(rust) => (told(rust), ratio(ours, rust)),
        None if oracle::text_at_hand() => ("too long".to_string(), "-".to_string()),
        None => ("-".to_string(), "-".to_string()),
    };
    [rust, beside]
}
