//! A node that is met again, when its bucket has many others, is the one that is
//! there.

use super::add;
use super::shapes::{begun, BELOW, SHAPES, VISITS};
use crate::edges::edge::Edges;
use crate::edges::worked::Nodes;
use crate::input::buckets::{bucket, numbers};
use crate::input::draft::Draft;

/// The others of the bucket.
const OTHERS: u32 = 300;

pub fn again(edges: &mut Edges) {
    of_each_kind(edges);
    let (text, lines) = all_of_a_bucket();
    add(edges, "all of a bucket, again and again", text, &lines);
}

/// A node of each kind, variables of its bucket, and an entry that is the same
/// node.
fn of_each_kind(edges: &mut Edges) {
    for shape in &SHAPES {
        let (mut draft, mut nodes) = begun(OTHERS + 6);
        let mut fields = BELOW.to_vec();
        fields.push((shape.entry)(&mut draft));
        let mut children = vec![0, 1, 2, 3, nodes.node(shape.line.to_string())];
        for number in numbers(bucket(shape.row)).take(OTHERS as usize) {
            fields.push(draft.tyvar(number));
            children.push(nodes.node(format!("tyvar>{number}")));
        }
        fields.push((shape.entry)(&mut draft));
        children.push(4);
        let set = draft.set(&fields, &[]);
        nodes.set(&children);
        let lines = nodes.root(set, 1 + VISITS + 2 * shape.visits + OTHERS);
        let name = format!("{} again after {OTHERS} of its bucket", shape.name);
        add(edges, &name, draft.rooted(set), &lines);
    }
}

/// Variables of one bucket, and each of them again, by other entries: in the
/// same order, which gives the same set, and in the other order.
pub fn all_of_a_bucket() -> (Vec<u8>, String) {
    let numbers: Vec<u32> = numbers(0).take(OTHERS as usize + 1).collect();
    let turned: Vec<u32> = numbers.iter().rev().copied().collect();
    let mut draft = Draft::with_names(OTHERS + 1);
    let mut nodes = Nodes::default();
    let (mut sets, mut children) = (Vec::new(), Vec::new());
    for numbers in [&numbers, &numbers, &turned] {
        let variables: Vec<u32> = numbers.iter().map(|&number| draft.tyvar(number)).collect();
        sets.push(draft.set(&variables, &[]));
        let lines = numbers.iter().map(|number| format!("tyvar>{number}"));
        let variables: Vec<usize> = lines.map(|line| nodes.node(line)).collect();
        children.push(nodes.set(&variables));
    }
    let set = draft.set(&sets, &[]);
    nodes.set(&children);
    let lines = nodes.root(set, 1 + 3 * (1 + OTHERS + 1));
    (draft.rooted(set), lines)
}
