//! Slow tables: those made by hand, and what is common to those that were bred
//! (`host breed`). Each shape makes lists of as many members as may be, looked
//! through as often as 8,192 ids allow.

use super::{padded_name, paired, Draft};
use crate::table::{Entry, Root, Set};

pub struct Shape {
    pub name: &'static str,
    /// A table of this part of its full size, in quarters.
    pub(super) make: fn(&mut Draft, u32),
}

pub const QUARTERS: u32 = 4;

pub const SHAPES: &[Shape] = &[
    Shape {
        name: "unions of sets alike",
        make: sets_alike,
    },
    Shape {
        name: "sets alike, intersected",
        make: sets_intersected,
    },
    Shape {
        name: "sets taken up at last",
        make: sets_taken_up,
    },
    Shape {
        name: "the same, keys shared by two",
        make: sets_chained,
    },
    Shape {
        name: "sets merged",
        make: sets_merged,
    },
    Shape {
        name: "unions flattened",
        make: unions_flattened,
    },
    Shape {
        name: "unions with a negation",
        make: unions_with_negation,
    },
    Shape {
        name: "intersections flattened",
        make: intersections_flattened,
    },
    Shape {
        name: "unions factored",
        make: unions_factored,
    },
];

/// Any of them, of any part of its size.
pub(super) fn slow(d: &mut Draft) {
    let shape = d.rng.below(SHAPES.len());
    let part = d.rng.range(1, QUARTERS);
    (SHAPES[shape].make)(d, part);
}

fn of_quarters(full: u32, part: u32) -> u32 {
    full * part / QUARTERS
}

fn names(d: &mut Draft, count: u32) {
    d.table.names = (0..count).map(|i| padded_name(i as usize, 4)).collect();
}

fn root(d: &mut Draft, id: u32, positive: bool) {
    d.table.roots.push(Root { id, positive });
}

/// So many sets of so many fields that differ in the last alone.
fn alike(d: &mut Draft, sets: u32, fields: u32, open: bool) -> Vec<u32> {
    let common = fields - 1;
    names(d, common + sets);
    let prim = d.prim();
    (0..sets)
        .map(|own| {
            let keys = (0..common).chain([common + own]);
            d.add(Entry::Set(Set {
                fields: keys.map(|key| (key, prim)).collect(),
                open,
                ..Set::default()
            }))
        })
        .collect()
}

/// A variable over all of these, some at a time.
fn over(d: &mut Draft, ids: &[u32], at_a_time: usize) -> u32 {
    let parts: Vec<u32> = ids.chunks(at_a_time).map(|part| d.var(part, &[])).collect();
    d.var(&parts, &[])
}

/// This part of so many entries, all alike, and a root over them, some at a time.
fn many(d: &mut Draft, entry: Entry, full: u32, part: u32, at_a_time: usize) {
    let ids: Vec<u32> = (0..of_quarters(full, part))
        .map(|_| d.add(entry.clone()))
        .collect();
    let whole = over(d, &ids, at_a_time);
    root(d, whole, true);
}

/// 80 variables whose lowers are the same 40 open sets of 60 fields.
fn sets_alike(d: &mut Draft, part: u32) {
    let sets = alike(d, 40, of_quarters(60, part), true);
    let vars: Vec<u32> = (0..80).map(|_| d.var(&sets, &[])).collect();
    let whole = d.var(&vars, &[]);
    root(d, whole, true);
}

/// 40 closed sets over the same 50 keys, intersected, and that with each of 300
/// named types.
fn sets_intersected(d: &mut Draft, part: u32) {
    let (sets, fields) = (40, 50);
    let named = of_quarters(300, part);
    names(d, named);
    let prim = d.prim();
    let sets: Vec<u32> = (0..sets)
        .map(|own| {
            d.add(Entry::Set(Set {
                fields: (0..fields).map(|key| (key, prim)).collect(),
                optional: vec![own],
                ..Set::default()
            }))
        })
        .collect();
    let inter = |whole, &set: &u32| d.add(Entry::Inter(whole, set));
    let whole = sets[1..].iter().fold(sets[0], inter);
    let inters: Vec<u32> = (0..named)
        .map(|name| {
            let named = d.add(Entry::Named(name, prim));
            d.add(Entry::Inter(whole, named))
        })
        .collect();
    let top = d.var(&inters, &[]);
    root(d, top, true);
}

/// A union of 126 open sets, each with a key of its own.
fn sets_taken_up(d: &mut Draft, part: u32) {
    let sets = alike(d, 126, 16, true);
    taken_up(d, &sets, part);
}

/// The same, but that each key which is not common to all is in two of the sets.
fn sets_chained(d: &mut Draft, part: u32) {
    let (sets, common) = (126, 14);
    names(d, common + sets);
    let prim = d.prim();
    let sets: Vec<u32> = (0..sets)
        .map(|own| {
            let mut keys: Vec<u32> = (0..common).collect();
            keys.extend([common + own, common + (own + 1) % sets]);
            keys.sort_unstable();
            d.add(Entry::Set(Set {
                fields: keys.into_iter().map(|key| (key, prim)).collect(),
                open: true,
                ..Set::default()
            }))
        })
        .collect();
    taken_up(d, &sets, part);
}

/// Many unions of the union of these with the empty open set, which takes up all
/// of them, but last.
fn taken_up(d: &mut Draft, sets: &[u32], part: u32) {
    let union = d.var(sets, &[]);
    let empty = d.add(Entry::Set(Set {
        open: true,
        ..Set::default()
    }));
    many(d, Entry::Union(union, empty), 1_200, part, 60);
}

/// 100 variables with the same 60 uppers, sets of optional fields that no other
/// of them has.
fn sets_merged(d: &mut Draft, part: u32) {
    let (sets, fields) = (60, 8);
    names(d, sets * fields);
    let prim = d.prim();
    let sets: Vec<u32> = (0..sets)
        .map(|own| {
            let keys = own * fields..(own + 1) * fields;
            d.add(Entry::Set(Set {
                fields: keys.clone().map(|key| (key, prim)).collect(),
                open: true,
                optional: keys.collect(),
                ..Set::default()
            }))
        })
        .collect();
    let vars: Vec<u32> = (0..of_quarters(100, part))
        .map(|_| d.var(&[], &sets))
        .collect();
    let whole = d.var(&[], &vars);
    root(d, whole, false);
}

/// 127 lambdas, all different.
fn lambdas(d: &mut Draft) -> Vec<u32> {
    let mut parts: Vec<u32> = (0..6).map(|code| d.add(Entry::Prim(code))).collect();
    let lists: Vec<u32> = parts.iter().map(|&prim| d.add(Entry::List(prim))).collect();
    parts.extend(lists);
    let pairs = parts
        .iter()
        .flat_map(|&a| parts.iter().map(move |&b| (a, b)));
    let pairs: Vec<(u32, u32)> = pairs.take(127).collect();
    pairs
        .into_iter()
        .map(|(a, b)| d.add(Entry::Fn(a, b)))
        .collect()
}

/// A union of 127 lambdas, the same the other way round, and many unions of both.
fn unions_flattened(d: &mut Draft, part: u32) {
    let mut members = lambdas(d);
    let one = d.var(&members, &[]);
    members.reverse();
    let other = d.var(&members, &[]);
    many(d, Entry::Union(one, other), 1_700, part, 100);
}

/// Many unions of 126 lambdas with the negation of another type.
fn unions_with_negation(d: &mut Draft, part: u32) {
    let members = lambdas(d);
    let one = d.var(&members[1..], &[]);
    let prim = d.prim();
    let neg = d.add(Entry::Neg(prim));
    many(d, Entry::Union(one, neg), 1_700, part, 100);
}

/// 100 open sets, intersected in pairs and these again, and many intersections
/// of that with itself.
fn intersections_flattened(d: &mut Draft, part: u32) {
    let sets = alike(d, 100, 20, true);
    let top = paired(d, sets, Entry::Inter);
    many(d, Entry::Inter(top, top), 900, part, 100);
}

/// Many intersections of two unions that share 126 of their 127 members.
fn unions_factored(d: &mut Draft, part: u32) {
    let members = lambdas(d);
    let one = d.var(&members[1..], &[]);
    let other = d.var(&members[..members.len() - 1], &[]);
    many(d, Entry::Inter(one, other), 900, part, 100);
}
