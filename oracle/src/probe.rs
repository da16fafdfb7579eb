//! What the patches and counters in the text record, for one root at a time
//! on one thread.

use std::cell::{Cell, RefCell};

use crate::text::lang_ty::OutputTy;

/// Negations of one root after which its answer is given up.
const NEGATIONS: u64 = 1_000_000;

/// What one root's run recorded.
#[derive(Clone, Copy, Debug, Default)]
pub struct Record {
    budget: u64,
    /// Passes run.
    pub passes: u32,
    /// Operations of both passes.
    pub operations: u64,
    /// A pass bailed.
    pub bailed: bool,
    /// The first pass bailed, and the second did not.
    pub first_alone: bool,
    /// Factoring shared two or more list members, in either pass.
    pub sorted: bool,
    /// A fallback chain after the bail would go on for ever.
    pub endless: bool,
    /// Fallbacks now open that began after the bail.
    chain: u32,
    negations: u64,
    /// Most keys in progress at once.
    pub keys: usize,
    /// Longest member list into or out of flattening, or stored.
    pub list: usize,
    /// Nodes and node cells that this pass has stored.
    nodes: usize,
    cells: usize,
    /// The most of them in a pass that has ended.
    pub most_nodes: usize,
    pub most_cells: usize,
}

impl Record {
    /// The negations were cut short: the answer is not the text's.
    pub fn too_long(&self) -> bool {
        self.negations > NEGATIONS
    }
}

thread_local! {
    static RECORD: Cell<Record> = const { Cell::new(EMPTY) };
    static HITS: RefCell<Vec<u64>> = RefCell::new(vec![0; BRANCHES.len()]);
}

const EMPTY: Record = Record {
    budget: 0,
    passes: 0,
    operations: 0,
    bailed: false,
    first_alone: false,
    sorted: false,
    endless: false,
    chain: 0,
    negations: 0,
    keys: 0,
    list: 0,
    nodes: 0,
    cells: 0,
    most_nodes: 0,
    most_cells: 0,
};

/// Names of the branch counters, in the order of their numbers.
pub const BRANCHES: &[&str] = include!(concat!(env!("OUT_DIR"), "/branches.rs"));

fn change(f: impl FnOnce(&mut Record)) {
    RECORD.with(|cell| {
        let mut record = cell.get();
        f(&mut record);
        cell.set(record);
    });
}

/// Begins a root's record.
pub fn start(budget: u64) {
    RECORD.set(Record { budget, ..EMPTY });
}

/// The record of the root last begun.
pub fn record() -> Record {
    RECORD.get()
}

/// Counts of all branches on this thread.
pub fn hits() -> Vec<u64> {
    HITS.with_borrow(Clone::clone)
}

pub fn hit(branch: usize) {
    HITS.with_borrow_mut(|hits| hits[branch] += 1);
}

/// Counts a test's outcome: `branch` for true, the next one for false.
pub fn either(branch: usize, outcome: bool) -> bool {
    hit(branch + usize::from(!outcome));
    outcome
}

pub fn operation() {
    change(|r| r.operations += 1);
}

pub fn over_budget() -> bool {
    let record = RECORD.get();
    record.operations > record.budget
}

pub fn pass(bailed: bool) {
    change(|r| {
        r.passes += 1;
        r.first_alone = r.bailed && !bailed;
        r.bailed |= bailed;
        r.most_nodes = r.most_nodes.max(std::mem::take(&mut r.nodes));
        r.most_cells = r.most_cells.max(std::mem::take(&mut r.cells));
    });
}

/// A node that was not in the arena yet.
pub fn stored(node: &OutputTy) {
    let cells = match node {
        OutputTy::Union(members) | OutputTy::Intersection(members) => {
            list(members.len());
            members.len()
        }
        OutputTy::AttrSet(set) => 2 * set.fields.len() + set.optional_fields.len(),
        _ => 0,
    };
    change(|r| {
        r.nodes += 1;
        r.cells += cells;
    });
}

pub fn shared(members: usize) {
    change(|r| r.sorted |= members >= 2);
}

pub fn keys(now: usize) {
    change(|r| r.keys = r.keys.max(now));
}

pub fn list(members: usize) {
    change(|r| r.list = r.list.max(members));
}

/// Counts a negation; true once there are too many.
pub fn negation() -> bool {
    change(|r| r.negations += 1);
    RECORD.get().too_long()
}

/// A fallback that is open as long as this value lives.
pub struct Chain {
    counted: bool,
}

/// Begins a fallback. After the bail every visit answers at once and alike,
/// so fallbacks that began after it and are open together belong to one
/// variable; the third has the polarity of the first and would go the same
/// way again, for ever.
pub fn fallback(bailed: bool) -> Chain {
    if bailed {
        change(|r| {
            r.chain += 1;
            r.endless |= r.chain > 2;
        });
    }
    Chain { counted: bailed }
}

impl Chain {
    pub fn is_endless(&self) -> bool {
        self.counted && RECORD.get().chain > 2
    }
}

impl Drop for Chain {
    fn drop(&mut self) {
        if self.counted {
            change(|r| r.chain -= 1);
        }
    }
}
