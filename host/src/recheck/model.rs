//! What recheck must answer in either form, worked out anew: by the oracle's
//! reader of tables, a reader of old listings of the host's own, a plain search
//! from each root, and canon's listing of the new table.

use oracle::listing::heading;
use oracle::table::Entry;
use oracle::{reader, Form, Table};

use super::old;
use crate::calls::{refused, Input, Refused};
use crate::lines;

/// What recheck writes, and which roots are redone.
pub struct Rechecked {
    pub text: Vec<u8>,
    pub redone: Vec<bool>,
}

/// The answer but for 12 and 20. `fresh` is canon's listing of the new table in
/// this form, and is asked for only where there is an answer.
pub fn answer(
    form: Form,
    input: &Input,
    fresh: impl FnOnce() -> Result<Vec<u8>, String>,
) -> Result<Result<Rechecked, Refused>, String> {
    let (redone, blocks) = match read(form, input) {
        Ok(read) => read,
        Err(refusal) => return Ok(Err(refusal)),
    };
    let fresh = fresh()?;
    let afresh = lines::blocks(&fresh);
    let mut text = first_line(&redone);
    text.extend(heading(form, redone.len()).into_bytes());
    for (i, &redone) in redone.iter().enumerate() {
        text.extend_from_slice(if redone { afresh[i] } else { blocks[i] });
    }
    Ok(Ok(Rechecked { text, redone }))
}

/// Which roots are redone, and the old lines of each.
fn read(form: Form, input: &Input) -> Result<(Vec<bool>, Vec<&[u8]>), Refused> {
    let old = reader::read(&input.old)?;
    let new = reader::read(&input.new)?;
    if !comparable(&old, &new) {
        return Err(refused(10, 0));
    }
    let blocks = old::read(form, new.names.len(), &new.roots, &input.listing);
    let blocks = blocks.map_err(|line| refused(11, line))?;
    Ok((redone(&old, &new), blocks))
}

/// Whether each root is redone.
pub fn redone(old: &Table, new: &Table) -> Vec<bool> {
    let roots = new.roots.iter();
    roots.map(|root| meets(old, new, root.id)).collect()
}

pub fn first_line(redone: &[bool]) -> Vec<u8> {
    let words = redone.iter().map(|&redone| match redone {
        true => "redone",
        false => "kept",
    });
    let line = words.collect::<Vec<_>>().join("\t");
    format!("{line}\n").into_bytes()
}

/// The tables differ in no line but entries.
fn comparable(old: &Table, new: &Table) -> bool {
    let lines = |table: &Table| Table {
        entries: vec![Entry::Prim(0); table.entries.len()],
        ..table.clone()
    };
    lines(old) == lines(new)
}

/// Whether a chain of bounds or children from an entry meets one that differs.
fn meets(old: &Table, new: &Table, id: u32) -> bool {
    let mut seen = vec![false; old.entries.len()];
    let mut left = vec![id];
    while let Some(id) = left.pop() {
        let id = id as usize;
        if old.entries[id] != new.entries[id] {
            return true;
        }
        if !seen[id] {
            seen[id] = true;
            left.extend(bounds_and_children(&old.entries[id]));
        }
    }
    false
}

fn bounds_and_children(entry: &Entry) -> Vec<u32> {
    match entry {
        Entry::Var { lowers, uppers } => [&lowers[..], uppers].concat(),
        Entry::Prim(_) | Entry::TyVar(_) => Vec::new(),
        Entry::List(a) | Entry::Neg(a) | Entry::Named(_, a) => vec![*a],
        Entry::Fn(a, b) | Entry::Inter(a, b) | Entry::Union(a, b) => vec![*a, *b],
        Entry::Set(set) => {
            let types = set.fields.iter().map(|field| field.1);
            types.chain(set.dyn_ty).collect()
        }
    }
}
