//! Several tables in one.

use oracle::rng::Rng;
use oracle::table::Entry;
use oracle::{gen, reader, Root, Set, Table};

/// The number of such tables among the kinds of tables, after the profiles.
pub const JOINED: usize = gen::PROFILES.len();

/// The number of slow tables, after those.
pub const SLOW: usize = JOINED + 1;

/// The names of the kinds of tables that are counted each by itself.
pub fn kinds() -> impl Iterator<Item = &'static str> {
    let profiles = gen::PROFILES.iter().map(|profile| profile.name);
    profiles.chain(["joined", "slow"])
}

/// A table after another, with at most so many of its roots: ids are moved,
/// names are shared.
pub fn behind(first: &Table, next: &Table, most: usize) -> Table {
    let mut whole = first.clone();
    // The parts have different budgets; any of them serves.
    whole.budget = next.budget;
    whole.names.extend(next.names.iter().cloned());
    whole.names.sort();
    whole.names.dedup();
    let key = |names: &[Vec<u8>], old: u32| {
        let name = &names[old as usize];
        whole.names.binary_search(name).map_or(0, |at| at as u32)
    };
    let names = whole.names.clone();
    let entries = first.entries.iter();
    let mut moved: Vec<Entry> = entries
        .map(|entry| change(entry, |id| id, |old| key(&first.names, old)))
        .collect();
    let (offset, n) = (first.entries.len() as u32, next.entries.len() as u32);
    // A number of n or more stays one.
    let id = |id: u32| match id < n {
        true => id + offset,
        false => id | 0x8000_0000,
    };
    let entries = next.entries.iter();
    moved.extend(entries.map(|entry| change(entry, id, |old| key(&next.names, old))));
    whole.names = names;
    whole.entries = moved;
    whole
        .pairs
        .extend(next.pairs.iter().map(|&(a, b)| (id(a), id(b))));
    whole.marks.extend(next.marks.iter().map(|&mark| id(mark)));
    // No more than 64 in all.
    let left = 64 - whole.roots.len();
    let roots = next.roots.iter().take(left.min(most));
    whole.roots.extend(roots.map(|root| Root {
        id: id(root.id),
        positive: root.positive,
    }));
    whole
}

/// Tables of several profiles in one, their roots in any order, so that what
/// a root leaves behind meets roots of other kinds.
pub fn several(seed: u64, index: u64) -> Option<Table> {
    let mut rng = Rng::new(seed ^ index.rotate_left(32));
    let mut whole = Table::default();
    for _ in 0..rng.range(2, 5) {
        let next = gen::table(rng.below(gen::PROFILES.len()), rng.draw());
        let longer = behind(&whole, &next, 8);
        if reader::read(&longer.to_text()).is_ok() {
            whole = longer;
        }
    }
    rng.shuffle(&mut whole.roots);
    Some(whole).filter(|whole| !whole.roots.is_empty())
}

/// An entry with other ids and keys in place of its own.
pub fn change(entry: &Entry, mut id: impl FnMut(u32) -> u32, key: impl Fn(u32) -> u32) -> Entry {
    let mut ids = |list: &[u32]| list.iter().map(|&a| id(a)).collect();
    match entry {
        Entry::Var { lowers, uppers } => Entry::Var {
            lowers: ids(lowers),
            uppers: ids(uppers),
        },
        Entry::Prim(code) => Entry::Prim(*code),
        Entry::TyVar(number) => Entry::TyVar(id(*number)),
        Entry::List(a) => Entry::List(id(*a)),
        Entry::Fn(a, b) => Entry::Fn(id(*a), id(*b)),
        Entry::Set(set) => Entry::Set(Set {
            fields: set.fields.iter().map(|&(k, a)| (key(k), id(a))).collect(),
            dyn_ty: set.dyn_ty.map(&mut id),
            open: set.open,
            optional: set.optional.iter().map(|&k| key(k)).collect(),
        }),
        Entry::Neg(a) => Entry::Neg(id(*a)),
        Entry::Named(name, a) => Entry::Named(key(*name), id(*a)),
        Entry::Inter(a, b) => Entry::Inter(id(*a), id(*b)),
        Entry::Union(a, b) => Entry::Union(id(*a), id(*b)),
    }
}
