//! What the patches in the text record, as far as a listing tells it.

use std::cell::Cell;

use crate::text::lang_ty::OutputTy;

/// What one root's run recorded; the sizes stay 0.
#[derive(Default)]
pub struct Record {
    pub passes: u32,
    pub operations: u64,
    pub bailed: bool,
    pub first_alone: bool,
    pub sorted: bool,
    pub endless: bool,
    pub keys: usize,
    pub list: usize,
    pub most_nodes: usize,
    pub most_cells: usize,
}

impl Record {
    pub fn too_long(&self) -> bool {
        false
    }
}

/// One cell for each fact, so that noting one touches no other.
#[derive(Default)]
struct Facts {
    budget: Cell<u64>,
    operations: Cell<u64>,
    passes: Cell<u32>,
    bailed: Cell<bool>,
    first_alone: Cell<bool>,
    sorted: Cell<bool>,
    endless: Cell<bool>,
    chain: Cell<u32>,
}

thread_local! {
    static FACTS: Facts = const {
        Facts {
            budget: Cell::new(0),
            operations: Cell::new(0),
            passes: Cell::new(0),
            bailed: Cell::new(false),
            first_alone: Cell::new(false),
            sorted: Cell::new(false),
            endless: Cell::new(false),
            chain: Cell::new(0),
        }
    };
}

pub fn start(budget: u64) {
    FACTS.with(|f| {
        f.budget.set(budget);
        f.operations.set(0);
        f.passes.set(0);
        f.bailed.set(false);
        f.first_alone.set(false);
        f.sorted.set(false);
        f.endless.set(false);
        f.chain.set(0);
    });
}

pub fn record() -> Record {
    FACTS.with(|f| Record {
        passes: f.passes.get(),
        operations: f.operations.get(),
        bailed: f.bailed.get(),
        first_alone: f.first_alone.get(),
        sorted: f.sorted.get(),
        endless: f.endless.get(),
        ..Record::default()
    })
}

#[inline]
pub fn operation() {
    FACTS.with(|f| f.operations.set(f.operations.get() + 1));
}

pub fn over_budget() -> bool {
    FACTS.with(|f| f.operations.get() > f.budget.get())
}

pub fn pass(bailed: bool) {
    FACTS.with(|f| {
        f.passes.set(f.passes.get() + 1);
        f.first_alone.set(f.bailed.get() && !bailed);
        f.bailed.set(f.bailed.get() || bailed);
    });
}

pub fn shared(members: usize) {
    FACTS.with(|f| f.sorted.set(f.sorted.get() || members >= 2));
}

/// Not measured here.
#[inline(always)]
pub fn stored(_node: &OutputTy) {}

#[inline(always)]
pub fn keys(_now: usize) {}

#[inline(always)]
pub fn list(_members: usize) {}

#[inline(always)]
pub fn negation() -> bool {
    false
}

/// A fallback that is open as long as this value lives; as in the oracle, the
/// third one after the bail would go round for ever.
pub struct Chain {
    counted: bool,
}

pub fn fallback(bailed: bool) -> Chain {
    if bailed {
        FACTS.with(|f| {
            f.chain.set(f.chain.get() + 1);
            f.endless.set(f.endless.get() || f.chain.get() > 2);
        });
    }
    Chain { counted: bailed }
}

impl Chain {
    pub fn is_endless(&self) -> bool {
        self.counted && FACTS.with(|f| f.chain.get() > 2)
    }
}

impl Drop for Chain {
    fn drop(&mut self) {
        if self.counted {
            FACTS.with(|f| f.chain.set(f.chain.get() - 1));
        }
    }
}
