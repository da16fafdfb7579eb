//! A node of each kind, over nodes whose numbers are known.

use crate::edges::worked::Nodes;
use crate::input::draft::Draft;

/// A node over some of the nodes 0 to 3.
pub struct Shape {
    pub name: &'static str,
    pub entry: fn(&mut Draft) -> u32,
    pub row: &'static [u32],
    pub line: &'static str,
    /// Of the entry and of those below it, each time that it is not cached.
    pub visits: u32,
}

const fn shape(
    name: &'static str,
    entry: fn(&mut Draft) -> u32,
    row: &'static [u32],
    line: &'static str,
    visits: u32,
) -> Shape {
    Shape {
        name,
        entry,
        row,
        line,
        visits,
    }
}

/// Each but a variable. A prim contradicts another; beside its negation it is
/// everything.
pub const SHAPES: [Shape; 11] = [
    shape("a prim", |draft| draft.prim(5), &[1, 5], "prim>5", 1),
    shape("a list", |draft| draft.list(0), &[2, 0], "list>0", 2),
    shape(
        "a lambda",
        |draft| draft.lambda(0, 1),
        &[3, 0, 1],
        "fn>0>1",
        3,
    ),
    shape(
        "an empty set",
        |draft| draft.set(&[], &[]),
        &[4, 0, 0, 0, 0],
        "set>->->0>-",
        1,
    ),
    shape(
        "a set",
        |draft| draft.set(&[1], &[0, 2]),
        &[4, 1, 0, 1, 0, 0, 2, 0, 2],
        "set>0:1>->0>0,2",
        2,
    ),
    shape(
        "a union",
        |draft| draft.union(2, 3),
        &[5, 2, 2, 3],
        "union>2,3",
        3,
    ),
    shape(
        "an intersection",
        |draft| draft.inter(2, 3),
        &[6, 2, 2, 3],
        "inter>2,3",
        3,
    ),
    shape(
        "a named type",
        |draft| draft.named(2, 0),
        &[7, 2, 0],
        "named>2>0",
        2,
    ),
    shape("a negation", |draft| draft.neg(1), &[8, 1], "neg>1", 2),
    shape("bottom", |draft| draft.inter(0, 1), &[9], "bottom", 3),
    shape(
        "top",
        |draft| {
            let neg = draft.neg(0);
            draft.union(0, neg)
        },
        &[10],
        "top",
        4,
    ),
];

/// The entries that the shapes are over, which are visited first. Each is the
/// node of its number.
pub const BELOW: [u32; 4] = [0, 1, 2, 3];
/// The visits to them.
pub const VISITS: u32 = 6;

/// A table that begins with them, and a root that does.
pub fn begun(names: u32) -> (Draft, Nodes) {
    let mut draft = Draft::with_names(names);
    let prims = [0, 3].map(|code| draft.prim(code));
    for name in [0, 1] {
        draft.named(name, prims[0]);
    }
    let mut nodes = Nodes::default();
    for line in ["prim>0", "prim>3", "named>0>0", "named>1>0"] {
        nodes.node(line.to_string());
    }
    (draft, nodes)
}
