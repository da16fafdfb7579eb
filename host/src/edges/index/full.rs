//! Tables of a root that comes to the limit of nodes or of cells, with nearly all
//! its nodes in one bucket, or with nodes in all buckets.

use std::collections::VecDeque;
use std::ops::Range;

use crate::input::buckets::{bucket, consecutive, numbers};
use crate::input::draft::Draft;

/// Where the nodes are.
#[derive(Clone, Copy)]
pub enum Buckets {
    One,
    All,
}

pub struct Full {
    pub draft: Draft,
    pub root: u32,
    /// The lines of the entries 0 and 1.
    pub first: [String; 2],
}

const BUCKET: u32 = 0;
const NAMES: u32 = 1_024;

/// The numbers of so many variables.
fn variables(buckets: Buckets, count: u32) -> Vec<u32> {
    match buckets {
        Buckets::One => numbers(BUCKET).take(count as usize).collect(),
        Buckets::All => consecutive().take(count as usize).collect(),
    }
}

/// The first of these numbers that puts the row into the bucket.
fn choose(buckets: Buckets, mut from: Range<u32>, row: impl Fn(u32) -> Vec<u32>) -> u32 {
    let first = from.start;
    match buckets {
        Buckets::One => from
            .find(|&number| bucket(&row(number)) == BUCKET)
            .unwrap_or(first),
        Buckets::All => first,
    }
}

/// Named types, over a variable and over each other. They are visited in a
/// negative place and after that in a positive one, which gives two nodes each.
const TYPES: u32 = 1_969;
/// By so much the child of the second is greater. With 1,974 a hash goes on by
/// less than a quarter of a bucket, so that both nodes can be in one.
const APART: u32 = TYPES + 5;
/// The types in the first of two sets, which is stored before the others.
const FIRST_SET: u32 = 1_000;

/// The name of each type, and which is below it: 0 is the variable.
fn types(buckets: Buckets) -> Vec<(u32, u32)> {
    let mut ready = VecDeque::new();
    let next = |below: u32| {
        // The variable's node in a negative place is 2.
        let a = 2 + below + u32::from(below > FIRST_SET);
        let inside = |a: u32, name: u32| bucket(&[7, name, a]) == BUCKET;
        if let Buckets::One = buckets {
            let names = (0..NAMES).filter(|&name| inside(a, name) && inside(a + APART, name));
            ready.extend(names.map(|name| (name, below)));
        }
        ready.pop_front().unwrap_or((below % NAMES, below))
    };
    (0..TYPES).map(next).collect()
}

/// A set of two sets of the types.
fn both_sets(draft: &mut Draft, var: u32, types: &[(u32, u32)]) -> u32 {
    let mut below = vec![var];
    for &(name, number) in types {
        below.push(draft.named(name, below[number as usize]));
    }
    let parts = below[1..].chunks(FIRST_SET as usize);
    let sets: Vec<u32> = parts.map(|part| draft.set(part, &[])).collect();
    draft.set(&sets, &[])
}

/// 4,095 nodes in the second pass, and one more for each variable. The first type
/// is met again when all but the last are stored, and once more after that, in a
/// set that equals the last.
pub fn nodes(buckets: Buckets, count: u32) -> Full {
    let mut draft = Draft::with_names(NAMES);
    let (lower, upper) = (draft.prim(0), draft.prim(1));
    let var = draft.var(&[lower], &[upper]);
    let types = types(buckets);
    // In a negative place a prim, the variable, an intersection, the types and
    // three sets; in the positive one a prim, a union, the types and three sets;
    // the lambda; 5 for each of 29 leaves, but for 1; the last set.
    let sets = both_sets(&mut draft, var, &types);
    let mut fields = vec![draft.lambda(sets, sets), draft.tree(29, lower, upper)];
    for number in variables(buckets, count) {
        fields.push(draft.tyvar(number));
    }
    let optional = choose(buckets, 0..NAMES, |key| last_row(count, key));
    let [last, equal] = [(); 2].map(|()| {
        let again = draft.named(types[0].0, var);
        draft.set(&[&fields[..], &[again]].concat(), &[optional])
    });
    let root = draft.union(last, equal);
    draft.root(root);
    let first = [0, 1].map(|code| format!("prim>{code}"));
    Full { draft, root, first }
}

/// The row of the last set: the lambda, the tree, variables, the first type in a
/// positive place; an optional key.
fn last_row(variables: u32, key: u32) -> Vec<u32> {
    let lambda = 2 * TYPES + 11;
    let tree = lambda + 5 * 29 - 1;
    let children = [lambda].into_iter().chain(tree..=tree + variables);
    let children = children.chain([TYPES + 8]);
    let fields = (0..).zip(children).flat_map(|(key, a)| [key, a]);
    let row = [4, 3 + variables].into_iter().chain(fields);
    row.chain([0, 0, 1, key]).collect()
}

/// The variables of a large set; each is the entry and the node of its place.
const FIELDS: u32 = 1_000;
/// Sets that are merged of the large one and a set of one field more.
const MERGED: u32 = 7;

/// The row of a merged set whose last field is this.
fn merged_row(key: u32, a: u32) -> Vec<u32> {
    let large = (0..FIELDS).flat_map(|key| [key, key]);
    let row = [4, FIELDS + 1].into_iter().chain(large);
    row.chain([key, a, 0, 0, 0]).collect()
}

/// 16,044 cells, and one more for each optional key. When all but the root's own
/// node are stored, the first merged set is met again.
pub fn cells(buckets: Buckets, optional: u32) -> Full {
    let mut draft = Draft::with_names(NAMES);
    let numbers = variables(buckets, FIELDS);
    let variables: Vec<u32> = numbers.iter().map(|&number| draft.tyvar(number)).collect();
    let large = draft.set(&variables, &[]);
    let keys = (FIELDS..FIELDS + MERGED).chain([FIELDS]);
    let merged = keys.map(|key| {
        let a = choose(buckets, 0..FIELDS, |a| merged_row(key, a));
        let small = draft.set_of(&[(key, variables[a as usize])]);
        draft.var(&[], &[large, small])
    });
    let merged: Vec<u32> = merged.collect();
    // The large set has 2,000 and a merged one 2,002; a small one has 2, and the
    // root 16.
    let optional: Vec<u32> = (0..optional).collect();
    let root = draft.set(&merged, &optional);
    draft.negative_root(root);
    let first = [0, 1].map(|i| format!("tyvar>{}", numbers[i]));
    Full { draft, root, first }
}
