//! Our lines of a root beside the Rust's answer.

use oracle::{Answer, RootAnswer};

use crate::{limits, lines};

/// What a root's comparison came to, in the order of the table's columns.
#[derive(Clone, Copy, PartialEq, Eq, PartialOrd, Ord)]
pub enum Verdict {
    /// The same bytes.
    Same,
    /// The Rust's sorted mark is 1: the same bytes all the same, the same
    /// types but for the order of members, or something else.
    SortedSame,
    SortedOrder,
    SortedElse,
    /// The Rust would not return, or nobody would wait for it; ours is an
    /// answer.
    Endless,
    TooLong,
    /// Refused here where the Rust's sizes pass the limit.
    Limit6,
    Limit7,
    Limit8,
    Limit9,
    Differs,
}

pub const VERDICTS: [(Verdict, &str); 11] = [
    (Verdict::Same, "same"),
    (Verdict::SortedSame, "sorted, same"),
    (Verdict::SortedOrder, "sorted, order"),
    (Verdict::SortedElse, "sorted, else"),
    (Verdict::Endless, "endless"),
    (Verdict::TooLong, "too long"),
    (Verdict::Limit6, "limit 6"),
    (Verdict::Limit7, "limit 7"),
    (Verdict::Limit8, "limit 8"),
    (Verdict::Limit9, "limit 9"),
    (Verdict::Differs, "DIFFERS"),
];

impl Verdict {
    /// The bytes are the same.
    pub fn is_same(self) -> bool {
        matches!(self, Verdict::Same | Verdict::SortedSame)
    }

    pub fn is_sorted(self) -> bool {
        self == Verdict::SortedSame || self.is_another_order()
    }

    /// Sorted, and not the same.
    pub fn is_another_order(self) -> bool {
        matches!(self, Verdict::SortedOrder | Verdict::SortedElse)
    }
}

pub fn judge(block: &[u8], root: &RootAnswer) -> Verdict {
    match (&root.answer, lines::root_refusal(block)) {
        // The Rust's run was cut short, and no limit can be judged by its sizes.
        (Answer::TooLong, _) if lines::is_answer(block, root.root) => Verdict::TooLong,
        (Answer::TooLong, _) => Verdict::Differs,
        (_, Some(number)) => judge_limit(number, block, root),
        (Answer::Endless, None) => Verdict::Endless,
        (Answer::Shown(shown), None) => judge_shown(shown.sorted, block, root),
    }
}

fn judge_shown(sorted: bool, block: &[u8], root: &RootAnswer) -> Verdict {
    // What passes a limit must be refused here. The Rust may store a Bottom
    // that is none of the rules' nodes.
    if !limits::within(root.measures, limits::NODES + 1, limits::CELLS) {
        return Verdict::Differs;
    }
    let theirs = lines::of_rust(root);
    match (block == theirs, sorted) {
        (true, false) => Verdict::Same,
        (false, false) => Verdict::Differs,
        (true, true) => Verdict::SortedSame,
        (false, true) if lines::head(block).get(5) != Some(&"1") => Verdict::Differs,
        (false, true) if lines::same_but_order(block, &theirs) => Verdict::SortedOrder,
        (false, true) => Verdict::SortedElse,
    }
}

/// Keys and lists are the same in the Rust; nodes and cells are looked at from
/// a little below.
fn judge_limit(number: u32, block: &[u8], root: &RootAnswer) -> Verdict {
    if block != lines::refused_root(root.root, number).as_bytes() {
        return Verdict::Differs;
    }
    let sizes = root.measures;
    match number {
        6 if sizes.keys > limits::KEYS => Verdict::Limit6,
        7 if sizes.list > limits::MEMBERS => Verdict::Limit7,
        8 if sizes.nodes > limits::NEAR_NODES => Verdict::Limit8,
        9 if sizes.cells > limits::NEAR_CELLS => Verdict::Limit9,
        _ => Verdict::Differs,
    }
}
