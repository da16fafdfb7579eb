//! Nodes that differ although their rows have one hash: each is a node of its
//! own, whichever is stored first.

use super::add;
use super::shapes::{begun, BELOW, SHAPES, VISITS};
use crate::edges::edge::Edges;
use crate::edges::worked::Nodes;
use crate::input::buckets::{hash, variable_of};
use crate::input::draft::Draft;

pub fn hashes(edges: &mut Edges) {
    for turned in [false, true] {
        beside_variables(edges, turned);
        beside_each_other(edges, turned);
    }
}

/// A node of each kind, and the variable that has its hash.
fn beside_variables(edges: &mut Edges, turned: bool) {
    for shape in &SHAPES {
        let number = variable_of(hash(shape.row));
        assert_eq!(hash(&[0, number]), hash(shape.row), "they have one hash");
        let (mut draft, mut nodes) = begun(6);
        let node = ((shape.entry)(&mut draft), shape.line.to_string());
        let variable = (draft.tyvar(number), format!("tyvar>{number}"));
        let name = format!("{} and the variable of its hash", shape.name);
        let [first, second] = in_turn([node, variable], turned);
        let set = draft.set(&[&BELOW[..], &[first.0, second.0]].concat(), &[]);
        let children = [0, 1, 2, 3, nodes.node(first.1), nodes.node(second.1)];
        nodes.set(&children);
        let lines = nodes.root(set, 1 + VISITS + shape.visits + 1);
        add(edges, &named(&name, turned), draft.rooted(set), &lines);
    }
}

fn in_turn<T>([a, b]: [T; 2], turned: bool) -> [T; 2] {
    match turned {
        true => [b, a],
        false => [a, b],
    }
}

fn named(name: &str, turned: bool) -> String {
    match turned {
        true => format!("{name}, which is first"),
        false => name.to_string(),
    }
}

/// A row of many words: a union of lists, or a set without fields but with
/// optional keys.
#[derive(Clone, Copy)]
enum Long {
    Union(&'static [u32]),
    Set(&'static [u32]),
}

/// List k is around k - 1 others, and is entry k and node k.
const LISTS: u32 = 16;

impl Long {
    fn row(self) -> Vec<u32> {
        let (begin, words): (&[u32], _) = match self {
            Long::Union(lists) => (&[5], lists),
            Long::Set(keys) => (&[4, 0, 0, 0], keys),
        };
        [begin, &[words.len() as u32], words].concat()
    }

    fn entry(self, draft: &mut Draft) -> u32 {
        match self {
            Long::Union(lists) => draft.var(lists, &[]),
            Long::Set(keys) => draft.set(&[], keys),
        }
    }

    fn line(self) -> String {
        let told = |words: &[u32]| {
            let words: Vec<String> = words.iter().map(u32::to_string).collect();
            words.join(",")
        };
        match self {
            Long::Union(lists) => format!("union>{}", told(lists)),
            Long::Set(keys) => format!("set>->->0>{}", told(keys)),
        }
    }

    fn visits(self) -> u32 {
        match self {
            Long::Union(lists) => 1 + lists.len() as u32,
            Long::Set(_) => 1,
        }
    }
}

/// Found by a search for two of one hash: of one kind and length, and of
/// neither.
const PAIRS: [(&str, [Long; 2]); 3] = [
    (
        "a union and another of its hash",
        [
            Long::Union(&[9, 4, 8, 10, 15, 1, 3, 2]),
            Long::Union(&[15, 8, 16, 11, 10, 13, 3, 2]),
        ],
    ),
    (
        "a set and another of its hash",
        [
            Long::Set(&[0, 7, 16, 21, 27, 35, 38, 39]),
            Long::Set(&[7, 17, 18, 19, 21, 22, 23, 32]),
        ],
    ),
    (
        "a union and a set of its hash",
        [
            Long::Union(&[1, 15, 2, 16, 10, 6]),
            Long::Set(&[5, 7, 8, 9, 18, 19, 20, 21]),
        ],
    ),
];

fn beside_each_other(edges: &mut Edges, turned: bool) {
    for (name, pair) in PAIRS {
        let [first, second] = in_turn(pair, turned);
        assert_eq!(
            hash(&first.row()),
            hash(&second.row()),
            "they have one hash"
        );
        let (mut draft, mut nodes) = (Draft::with_names(40), Nodes::default());
        let prim = draft.prim(0);
        draft.lists(prim, LISTS);
        let mut below = nodes.node("prim>0".to_string());
        for _ in 0..LISTS {
            below = nodes.node(format!("list>{below}"));
        }
        let entries = [first, second].map(|long| long.entry(&mut draft));
        let set = draft.set(&[LISTS, entries[0], entries[1]], &[]);
        let [a, b] = [first, second].map(|long| nodes.node(long.line()));
        nodes.set(&[below, a, b]);
        let lines = nodes.root(set, 1 + LISTS + 1 + first.visits() + second.visits());
        add(edges, &named(name, turned), draft.rooted(set), &lines);
    }
}
