//! Edits of a table's entries, and of a listing's lines so that it stays in
//! form.

use oracle::rng::Rng;
use oracle::table::Entry;
use oracle::{reader, Set, Table};

use super::join;

/// A table that differs in up to five entries. It is accepted, if the old one
/// is.
pub fn of_table(rng: &mut Rng, old: &Table) -> Table {
    let mut new = old.clone();
    let n = new.entries.len();
    let most = if n == 0 {
        0
    } else {
        rng.pick(&[0, 1, 1, 1, 2, 3, 5])
    };
    for _ in 0..most {
        let id = rng.below(n);
        let entry = edited(rng, &new, id);
        let before = std::mem::replace(&mut new.entries[id], entry);
        // An edit may pass a ceiling.
        if reader::read(&new.to_text()).is_err() {
            new.entries[id] = before;
        }
    }
    new
}

/// Another entry in place of one: bounds added or dropped, other ids in it,
/// or any entry at all.
fn edited(rng: &mut Rng, table: &Table, id: usize) -> Entry {
    let entry = &table.entries[id];
    let n = table.entries.len();
    match (entry, rng.below(3)) {
        (Entry::Var { lowers, uppers }, 0 | 1) => {
            let (mut lowers, mut uppers) = (lowers.clone(), uppers.clone());
            let bounds = if rng.chance(1, 2) {
                &mut lowers
            } else {
                &mut uppers
            };
            edit_bounds(rng, bounds, n);
            Entry::Var { lowers, uppers }
        }
        (Entry::Prim(code), 0 | 1) => Entry::Prim((code + rng.range(1, 31)) % 32),
        (_, 0) => {
            let id = |id| match rng.chance(1, 2) {
                true => rng.below(n) as u32,
                false => id,
            };
            join::change(entry, id, |key| key)
        }
        _ => any(rng, n, table.names.len()),
    }
}

fn edit_bounds(rng: &mut Rng, bounds: &mut Vec<u32>, n: usize) {
    let at = rng.below(bounds.len() + 1);
    match at < bounds.len() && rng.chance(1, 2) {
        true => {
            bounds.remove(at);
        }
        false => bounds.insert(at, rng.below(n) as u32),
    }
}

fn any(rng: &mut Rng, n: usize, names: usize) -> Entry {
    let mut id = || rng.below(n) as u32;
    let (a, b, c) = (id(), id(), id());
    // Sets and named types have names.
    match rng.below(if names == 0 { 8 } else { 10 }) {
        0 => Entry::Prim(rng.range(0, 7)),
        1 => Entry::TyVar(rng.pick(&[a, n as u32, u32::MAX])),
        2 => Entry::List(a),
        3 => Entry::Fn(a, b),
        4 => Entry::Neg(a),
        5 => Entry::Inter(a, b),
        6 => Entry::Union(a, b),
        7 => Entry::Var {
            lowers: rng.pick(&[&[][..], &[a], &[a, b]]).to_vec(),
            uppers: rng.pick(&[&[][..], &[c], &[c, b]]).to_vec(),
        },
        8 => Entry::Named(rng.below(names) as u32, a),
        _ => Entry::Set(Set {
            fields: vec![(rng.below(names) as u32, a)],
            dyn_ty: rng.pick(&[None, None, Some(b)]),
            open: rng.chance(1, 2),
            optional: Vec::new(),
        }),
    }
}

/// A table that differs in its budget, names, pairs, marks, roots or entry
/// count. A few come out the same, or refused.
pub fn of_other_lines(rng: &mut Rng, table: &Table) -> Table {
    let mut other = table.clone();
    let n = other.entries.len() as u32;
    match rng.below(9) {
        0 => other.budget ^= 1,
        1 => other.names.push(vec![0xff; 9]),
        2 => drop(other.names.pop()),
        3 => other.pairs.insert(rng.below(table.pairs.len() + 1), (0, n)),
        4 => drop(other.pairs.pop()),
        5 => other.marks.insert(rng.below(table.marks.len() + 1), n),
        6 => drop(other.marks.pop()),
        7 => drop(other.roots.pop()),
        _ => other.entries.push(Entry::Prim(0)),
    }
    if let (Some(root), true) = (other.roots.first_mut(), rng.chance(1, 9)) {
        root.positive = !root.positive;
    }
    other
}

/// A listing with other counts, marks, codes, numbers and kinds in some lines,
/// in form for the same roots.
pub fn of_listing(rng: &mut Rng, listing: &[u8]) -> Vec<u8> {
    let text = String::from_utf8_lossy(listing);
    let lines = text.lines().map(|line| match rng.chance(1, 3) {
        true => altered(rng, line) + "\n",
        false => line.to_string() + "\n",
    });
    lines.collect::<String>().into_bytes()
}

fn altered(rng: &mut Rng, line: &str) -> String {
    let mut fields: Vec<String> = line.split('\t').map(str::to_string).collect();
    let word = |fields: &[String], at: usize| fields.get(at).cloned().unwrap_or_default();
    match (&word(&fields, 0)[..], &word(&fields, 1)[..]) {
        ("answers" | "numbered", _) => {}
        ("root", _) => match rng.below(3) {
            0 => fields[3] = rng.pick(&["1", "2"]).to_string(),
            1 => fields[4] = rng.pick(&[0, 9, u64::from(u32::MAX)]).to_string(),
            _ => fields[5 + rng.below(2)] = rng.pick(&["0", "1"]).to_string(),
        },
        ("refused", _) => fields[3] = rng.range(6, 9).to_string(),
        (_, "prim") => fields[2] = rng.range(0, 31).to_string(),
        (_, "tyvar" | "named") => fields[2] = rng.pick(&[0, 7, u32::MAX]).to_string(),
        (_, "bottom" | "top") => fields[1] = rng.pick(&["bottom", "top"]).to_string(),
        (_, "list" | "neg") => fields[1] = rng.pick(&["list", "neg"]).to_string(),
        (_, "union" | "inter") => {
            let members = fields[2].clone();
            fields[1] = rng.pick(&["union", "inter"]).to_string();
            fields[2] = rng.pick(&["-", "0", "0,0,0", &members]).to_string();
        }
        (_, "fn") => fields.swap(2, 3),
        _ => fields[4] = rng.pick(&["0", "1"]).to_string(),
    }
    fields.join("\t")
}
