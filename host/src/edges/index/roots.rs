//! Roots over nodes of one bucket: what the index has of one root is none of the
//! next one's, and what it has of the first pass is none of the second's.

use super::{add, add_roots};
use crate::edges::edge::Edges;
use crate::edges::worked::Nodes;
use crate::input::buckets::numbers;
use crate::input::draft::Draft;

/// The variables of a large root.
const MANY: usize = 300;

pub fn roots(edges: &mut Edges) {
    one_by_one(edges);
    large_and_small(edges);
    for lambda_first in [true, false] {
        two_passes(edges, lambda_first);
    }
}

/// The lines of a root that is a set of variables with these numbers.
fn set_lines(id: u32, numbers: &[u32]) -> String {
    let mut nodes = Nodes::default();
    let lines = numbers.iter().map(|number| format!("tyvar>{number}"));
    let children: Vec<usize> = lines.map(|line| nodes.node(line)).collect();
    nodes.set(&children);
    nodes.root(id, 1 + numbers.len() as u32)
}

/// The lines of a root that is a variable.
fn variable_lines(id: u32, number: u32) -> String {
    let mut nodes = Nodes::default();
    nodes.node(format!("tyvar>{number}"));
    nodes.root(id, 1)
}

/// Sets of nine variables, each without the first of the one before and with one
/// more, every other one from the last to the first. Each is a root twice.
fn one_by_one(edges: &mut Edges) {
    let numbers: Vec<u32> = numbers(0).take(40).collect();
    let mut draft = Draft::with_names(9);
    let variables: Vec<u32> = numbers.iter().map(|&number| draft.tyvar(number)).collect();
    let mut lines = Vec::new();
    for (i, part) in variables.windows(9).enumerate() {
        let mut part = part.to_vec();
        if i % 2 == 1 {
            part.reverse();
        }
        let set = draft.set(&part, &[]);
        let part: Vec<u32> = part.iter().map(|&id| numbers[id as usize]).collect();
        for _ in 0..2 {
            draft.root(set);
            lines.push(set_lines(set, &part));
        }
    }
    add_roots(edges, "64 roots of one bucket", draft.text(), &lines);
}

/// A root of many variables, and roots of one or two of them: the newest, the
/// oldest, and one between.
fn large_and_small(edges: &mut Edges) {
    let numbers: Vec<u32> = numbers(0).take(MANY).collect();
    let mut draft = Draft::with_names(MANY as u32);
    let variables: Vec<u32> = numbers.iter().map(|&number| draft.tyvar(number)).collect();
    let large = draft.set(&variables, &[]);
    let mut lines = Vec::new();
    for i in [MANY - 1, 0, MANY / 2] {
        let two = draft.set(&[variables[i], variables[1]], &[]);
        for root in [large, variables[i], large, two] {
            draft.root(root);
        }
        lines.extend([
            set_lines(large, &numbers),
            variable_lines(variables[i], numbers[i]),
            set_lines(large, &numbers),
            set_lines(two, &[numbers[i], numbers[1]]),
        ]);
    }
    let name = "roots of one bucket, large and small";
    add_roots(edges, name, draft.text(), &lines);
}

/// Variables of one bucket, each twice, beside document 01's first example, of
/// which the second pass stores two nodes more than the first.
fn two_passes(edges: &mut Edges, lambda_first: bool) {
    let mut draft = Draft::with_names(2 * MANY as u32 + 1);
    let prim = draft.prim(0);
    let var = draft.var(&[prim], &[]);
    // An entry, and its number if it is a variable of the bucket.
    let lambda = (draft.lambda(var, var), None);
    let numbers: Vec<u32> = numbers(0).take(MANY).collect();
    let twice = numbers.iter().chain(&numbers);
    let mut fields: Vec<(u32, Option<u32>)> = twice
        .map(|&number| (draft.tyvar(number), Some(number)))
        .collect();
    let at = if lambda_first { 0 } else { fields.len() };
    fields.insert(at, lambda);
    let mut nodes = Nodes::default();
    let children = fields.iter().map(|&(_, number)| match number {
        Some(number) => nodes.node(format!("tyvar>{number}")),
        None => example(&mut nodes, var),
    });
    let children: Vec<usize> = children.collect();
    nodes.set(&children);
    let fields: Vec<u32> = fields.iter().map(|&(id, _)| id).collect();
    let set = draft.set(&fields, &[]);
    // The set and the variables in either pass; the example has 9.
    let operations = 2 * (1 + 2 * MANY as u32) + 9;
    let lines = nodes.root_of(set, 2, operations);
    let place = if lambda_first { "first" } else { "last" };
    let name = format!("two passes over one bucket, a lambda {place}");
    add(edges, &name, draft.rooted(set), &lines);
}

/// The nodes of the example, in the second pass.
fn example(nodes: &mut Nodes, var: u32) -> usize {
    let itself = nodes.node(format!("tyvar>{var}"));
    let prim = nodes.node("prim>0".to_string());
    let union = nodes.node(format!("union>{itself},{prim}"));
    nodes.node(format!("fn>{itself}>{union}"))
}
