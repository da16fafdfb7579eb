//! Changes of a table that may make it slower: lists made longer, entries
//! copied with a small difference, sets with more keys, one root many times.

use oracle::rng::Rng;
use oracle::table::Entry;
use oracle::{gen, Root, Set, Table};

use crate::input::join::{behind, change as changed};

/// No list of bounds is made longer.
const MEMBERS: usize = 128;
const ROOTS: usize = 64;

pub fn change(rng: &mut Rng, table: &mut Table, other: &Table) {
    if table.entries.is_empty() {
        table.entries.push(Entry::Prim(0));
    }
    match rng.below(16) {
        0 => copy_one(rng, table),
        1 => copy_many(rng, table),
        2 => bundle(rng, table),
        3 => pile(rng, table),
        4 => more_fields(rng, table),
        5 => fewer_fields(rng, table),
        6 => turn_sets(rng, table),
        7 => same_root(rng, table),
        8 => last_roots(rng, table),
        9 => other_id(rng, table),
        10 => lengthen(rng, table),
        11 => take_bounds(rng, table),
        12 => drop_last(rng, table),
        13 => any_pairs(rng, table),
        14 => *table = behind(table, other, 4),
        _ => {
            let next = gen::table(rng.below(gen::PROFILES.len()), rng.draw());
            *table = behind(table, &next, 4);
        }
    }
}

fn any_id(rng: &mut Rng, table: &Table) -> u32 {
    rng.below(table.entries.len()) as u32
}

/// An id near the end as often as any.
fn late_id(rng: &mut Rng, table: &Table) -> u32 {
    let n = table.entries.len();
    match rng.chance(1, 2) {
        true => any_id(rng, table),
        false => (n - 1 - rng.below(n.min(8))) as u32,
    }
}

/// The entry with up to one id changed.
fn alike(rng: &mut Rng, table: &Table, entry: &Entry) -> Entry {
    let n = table.entries.len();
    let (at, by) = (rng.below(40), rng.below(n) as u32);
    let mut place = 0;
    let id = |id| {
        place += 1;
        if place == at + 1 {
            by
        } else {
            id
        }
    };
    let mut copy = changed(entry, id, |key| key);
    if let Entry::Set(set) = &mut copy {
        let names = table.names.len();
        if names > 0 && rng.chance(1, 2) {
            toggle_key(set, rng.below(names) as u32, by);
        }
    }
    copy
}

fn toggle_key(set: &mut Set, key: u32, id: u32) {
    match set.fields.binary_search_by_key(&key, |field| field.0) {
        Ok(at) => {
            set.fields.remove(at);
        }
        Err(at) => set.fields.insert(at, (key, id)),
    }
}

fn copy_one(rng: &mut Rng, table: &mut Table) {
    let from = any_id(rng, table) as usize;
    let copy = alike(rng, table, &table.entries[from].clone());
    table.entries.push(copy);
}

fn copy_many(rng: &mut Rng, table: &mut Table) {
    let from = late_id(rng, table) as usize;
    for _ in 0..rng.pick(&[4, 16, 40, 100, 400]) {
        let copy = alike(rng, table, &table.entries[from].clone());
        table.entries.push(copy);
    }
}

/// A variable over the last so many entries, or over some of one kind.
fn bundle(rng: &mut Rng, table: &mut Table) {
    let n = table.entries.len();
    let count = rng.below(MEMBERS.min(n)) + 1;
    let ids: Vec<u32> = match rng.chance(1, 2) {
        true => (n - count..n).map(|id| id as u32).collect(),
        false => {
            let kind = std::mem::discriminant(&table.entries[any_id(rng, table) as usize]);
            let same = table.entries.iter().enumerate();
            let same = same.filter(|(_, entry)| std::mem::discriminant(*entry) == kind);
            same.map(|(id, _)| id as u32).take(count).collect()
        }
    };
    let (lowers, uppers) = match rng.below(3) {
        0 => (ids, Vec::new()),
        1 => (Vec::new(), ids),
        _ => (ids.clone(), ids),
    };
    table.entries.push(Entry::Var { lowers, uppers });
}

/// Entries of one kind, each over the last and another.
fn pile(rng: &mut Rng, table: &mut Table) {
    let kind = rng.below(6);
    let side = late_id(rng, table);
    for _ in 0..rng.pick(&[1, 2, 8, 30, 90]) {
        let last = table.entries.len() as u32 - 1;
        let side = match rng.chance(1, 2) {
            true => side,
            false => any_id(rng, table),
        };
        table.entries.push(match kind {
            0 => Entry::Union(last, side),
            1 => Entry::Inter(last, side),
            2 => Entry::Neg(last),
            3 => Entry::Fn(last, side),
            4 => Entry::Var {
                lowers: vec![last, side],
                uppers: vec![last, side],
            },
            _ => Entry::List(last),
        });
    }
}

fn sets(table: &mut Table) -> Vec<&mut Set> {
    let entries = table.entries.iter_mut();
    entries
        .filter_map(|entry| match entry {
            Entry::Set(set) => Some(set),
            _ => None,
        })
        .collect()
}

/// More names, and each set with more of them.
fn more_fields(rng: &mut Rng, table: &mut Table) {
    let wanted = table.names.len().max(rng.pick(&[2, 8, 30, 60, 200]));
    let mut number = 0;
    while table.names.len() < wanted {
        let name = format!("~{number:03}").into_bytes();
        if !table.names.contains(&name) {
            table.names.push(name);
        }
        number += 1;
    }
    table.names.sort();
    let id = any_id(rng, table);
    let (low, count) = (rng.below(wanted), rng.below(60) + 1);
    let optional = rng.chance(1, 4);
    for set in sets(table) {
        for key in low..(low + count).min(wanted) {
            let key = key as u32;
            if let Err(at) = set.fields.binary_search_by_key(&key, |field| field.0) {
                set.fields.insert(at, (key, id));
            }
            if let (Err(at), true) = (set.optional.binary_search(&key), optional) {
                set.optional.insert(at, key);
            }
        }
    }
}

fn fewer_fields(rng: &mut Rng, table: &mut Table) {
    let part = rng.range(1, 20);
    for set in sets(table) {
        set.fields.retain(|_| !rng.chance(part, 20));
        set.optional.retain(|_| !rng.chance(part, 20));
    }
}

fn turn_sets(rng: &mut Rng, table: &mut Table) {
    let open = rng.chance(1, 2);
    for set in sets(table) {
        set.open = open;
    }
}

fn same_root(rng: &mut Rng, table: &mut Table) {
    let root = Root {
        id: late_id(rng, table),
        positive: rng.chance(1, 2),
    };
    table.roots = vec![root; ROOTS];
}

fn last_roots(rng: &mut Rng, table: &mut Table) {
    let n = table.entries.len();
    let positive = rng.chance(1, 2);
    let roots = (0..ROOTS).map(|back| Root {
        id: (n - 1 - back % n) as u32,
        positive,
    });
    table.roots = roots.collect();
}

fn other_id(rng: &mut Rng, table: &mut Table) {
    let at = any_id(rng, table) as usize;
    table.entries[at] = alike(rng, table, &table.entries[at].clone());
}

/// A variable's bounds repeated or with ids after them.
fn lengthen(rng: &mut Rng, table: &mut Table) {
    let from = any_id(rng, table);
    let count = rng.below(60) as u32 + 1;
    let n = table.entries.len() as u32;
    let at = any_id(rng, table) as usize;
    let more: Vec<u32> = (from..(from + count).min(n)).collect();
    if let Entry::Var { lowers, uppers } = &mut table.entries[at] {
        let bounds = if rng.chance(1, 2) { lowers } else { uppers };
        bounds.extend(more);
        bounds.truncate(MEMBERS);
    }
}

/// The bounds of one variable for others too.
fn take_bounds(rng: &mut Rng, table: &mut Table) {
    let from = any_id(rng, table) as usize;
    let entry = table.entries[from].clone();
    if !matches!(entry, Entry::Var { .. }) {
        return;
    }
    for _ in 0..rng.pick(&[1, 10, 50]) {
        let at = any_id(rng, table) as usize;
        if matches!(table.entries[at], Entry::Var { .. }) {
            table.entries[at] = alike(rng, table, &entry);
        }
    }
}

/// Without the last so many entries; who named them names others.
fn drop_last(rng: &mut Rng, table: &mut Table) {
    let n = table.entries.len();
    let left = n - rng.below(n.min(200));
    table.entries.truncate(left);
    let within = |id: u32| id % left as u32;
    for entry in &mut table.entries {
        *entry = changed(entry, within, |key| key);
    }
    for root in &mut table.roots {
        root.id = within(root.id);
    }
}

fn any_pairs(rng: &mut Rng, table: &mut Table) {
    for _ in 0..rng.pick(&[1, 10, 300]) {
        let (a, b) = (any_id(rng, table), any_id(rng, table));
        table.pairs.push((a, b));
    }
    table.pairs.truncate(2_048);
}
