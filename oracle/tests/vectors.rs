//! The vectors, the records of crates/examples/stdin that the text answers,
//! are what the program makes, and have what they should have.

use std::collections::BTreeSet;

use oracle::records::{self, BY_RUST};

const FILE: &[u8] = include_bytes!("../../crates/examples/stdin");

#[test]
#[cfg(text_at_hand)]
fn vectors_are_made_again() {
    assert!(
        oracle::vectors::renewed(FILE).expect("in form") == FILE,
        "crates/examples/stdin differs from what `oracle vectors` makes of it"
    );
}

/// Tables and listings of a call.
fn vectors(call: &str) -> Vec<(&'static [u8], &'static [u8])> {
    let records = records::read(FILE).expect("in form");
    let vectors = records.iter().filter(|r| r.by == BY_RUST && r.call == call);
    vectors.map(|r| (r.given, r.answer)).collect()
}

/// The branches that no accepted table reaches are left out, and one that
/// always sets the sorted mark; docs/ORACLE.md says why.
#[cfg(text_at_hand)]
const NOT_TAKEN: [&str; 6] = [
    "concrete: frozen",
    "inter: all cancelled, Top",
    "factor: one union, empty",
    "factor: one union of one member",
    "factor: all shared, one member",
    "factor: all shared, a union",
];

#[test]
#[cfg(text_at_hand)]
fn vectors_take_every_branch() {
    let read = |(table, _): &(&[u8], &[u8])| oracle::reader::read(table).expect("accepted");
    let tables: Vec<_> = vectors("canon").iter().map(read).collect();
    assert_eq!(oracle::cover::untaken(&tables), NOT_TAKEN);
}

#[test]
fn vectors_are_of_the_domain() {
    let vectors = vectors("canon");
    assert!(vectors.len() >= 300);
    let mut words = BTreeSet::new();
    for (table, listing) in &vectors {
        assert!(oracle::reader::read(table).is_ok());
        let listing = std::str::from_utf8(listing).expect("text");
        for line in listing.lines() {
            let fields: Vec<&str> = line.split('\t').collect();
            match fields[..] {
                ["root", _, _, passes, _, sorted, bailed, _] => {
                    assert_eq!(sorted, "0");
                    words.insert(format!("passes {passes}"));
                    words.insert(format!("bailed {bailed}"));
                }
                ["answers", _] => {}
                [number, kind, ..] => {
                    assert!(number.parse::<u32>().is_ok(), "{line}");
                    words.insert(kind.to_string());
                }
                _ => panic!("{line}"),
            }
        }
    }
    // Two passes, two marks, eleven kinds.
    assert_eq!(words.len(), 15, "{words:?}");
}

/// The rest of a numbered listing is what canon lists, and variables have
/// other numbers in each.
#[test]
#[cfg(text_at_hand)]
fn numbered_vectors_differ_in_variables() {
    let vectors = vectors("canon_numbered");
    assert!((20..=40).contains(&vectors.len()));
    for (table, listing) in vectors {
        let plain = oracle::listing(oracle::Form::Plain, table).expect("a listing");
        let plain = String::from_utf8(plain).expect("text");
        let listing = std::str::from_utf8(listing).expect("text");
        let others: String = listing
            .split_inclusive('\n')
            .filter(|l| *l != "numbered\n")
            .collect();
        assert_ne!(others, plain);
        assert_eq!(without_numbers(&others), without_numbers(&plain));
        assert_eq!(listing.lines().nth(1), Some("numbered"));
    }
}

/// The lines, those of variables up to their numbers.
#[cfg(text_at_hand)]
fn without_numbers(listing: &str) -> Vec<&str> {
    let upto = |line: &'_ str| line.find("tyvar").map_or(line.len(), |at| at + 5);
    listing.lines().map(|line| &line[..upto(line)]).collect()
}
