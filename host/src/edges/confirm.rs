//! What is expected, held against the second reader of tables and against the
//! Rust.

use oracle::listing::heading;
use oracle::{reader, Answer, Form, Measures, RootAnswer};

use super::check::same;
use super::edge::{Edge, Expect};
use crate::calls::{refused, Refused};
use crate::limits::{lists_within, within, CELLS, KEYS, MEMBERS, NODES};
use crate::lines;

/// What the second reader and the Rust say of what is expected.
pub fn confirm(edge: &Edge) -> Result<(), String> {
    let read = reader::read(&edge.text);
    if let Expect::Refused(number @ 1..=5, line) = edge.expect {
        let theirs = read.err().map(Refused::from);
        return same(theirs, Some(refused(number, line)));
    }
    let table = read.map_err(|r| format!("the second reader: {r:?}"))?;
    if let Expect::Unasked(_) = edge.expect {
        return Ok(());
    }
    let Ok(theirs) = oracle::answers_of(edge.form, &table) else {
        return Ok(());
    };
    match &edge.expect {
        Expect::Refused(..) | Expect::Unasked(_) => Ok(()),
        Expect::Listing(listing) => confirm_listing(edge.form, listing, &theirs),
        Expect::Roots(heads) => {
            for (head, root) in heads.iter().zip(&theirs) {
                confirm_root(head, root)?;
            }
            same(heads.len(), theirs.len())
        }
    }
}

/// Root by root, since the Rust refuses none.
fn confirm_listing(form: Form, listing: &[u8], theirs: &[RootAnswer]) -> Result<(), String> {
    let blocks = lines::blocks(listing);
    for (block, root) in blocks.iter().zip(theirs) {
        match lines::root_refusal(block) {
            Some(number) => passes(root.measures, number)?,
            None if lines::of_rust(root) == *block => {}
            None => return Err("the Rust's listing is another".to_string()),
        }
    }
    let first = heading(form, theirs.len());
    same(
        (blocks.len(), listing.starts_with(first.as_bytes())),
        (theirs.len(), true),
    )
}

fn confirm_root(head: &str, root: &RootAnswer) -> Result<(), String> {
    let sizes = root.measures;
    if let Some(number) = lines::root_refusal(head.as_bytes()) {
        return passes(sizes, number);
    }
    if !matches!(root.answer, Answer::Shown(_)) {
        return Err("the Rust does not return".to_string());
    }
    let theirs = lines::of_rust(root);
    let theirs = lines::head(&theirs).join("\t");
    match within(sizes, NODES, CELLS) && theirs == head {
        true => Ok(()),
        false => Err(format!("the Rust: {theirs}, {sizes:?}")),
    }
}

/// Whether the Rust's sizes pass the limit of a number, and none before it.
fn passes(sizes: Measures, number: u32) -> Result<(), String> {
    let passes = match number {
        6 => sizes.keys > KEYS,
        7 => sizes.list > MEMBERS && sizes.keys <= KEYS,
        8 => sizes.nodes > NODES && lists_within(sizes),
        _ => sizes.cells > CELLS && lists_within(sizes),
    };
    match passes {
        true => Ok(()),
        false => Err(format!("the Rust's sizes are {sizes:?}")),
    }
}
