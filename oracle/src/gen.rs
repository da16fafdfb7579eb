//! Accepted tables from a seed, by profile. Each profile aims at rules that
//! plain random tables seldom reach.

pub mod slow;

use crate::rng::Rng;
use crate::table::{Entry, Root, Set, Table};

pub struct Profile {
    pub name: &'static str,
    pub about: &'static str,
    make: fn(&mut Draft),
}

pub const PROFILES: &[Profile] = &[
    Profile {
        name: "dense",
        about: "small dense cyclic graphs of every kind of entry",
        make: dense,
    },
    Profile {
        name: "prims",
        about: "unions, intersections and negations of primitives",
        make: prims,
    },
    Profile {
        name: "sets",
        about: "sets with shared keys, optional, open, closed, dyn, __functor",
        make: sets,
    },
    Profile {
        name: "pairs",
        about: "variables with pairs and marks, in range and out of it",
        make: pairs,
    },
    Profile {
        name: "tyvars",
        about: "tyvar numbers below, at and above n",
        make: tyvars,
    },
    Profile {
        name: "bounds16",
        about: "bound lists of 14 to 19 with repeated ids",
        make: bounds16,
    },
    Profile {
        name: "bounds64",
        about: "bound lists of 62 to 68 distinct ids, some of 126 to 130",
        make: bounds64,
    },
    Profile {
        name: "chains",
        about: "chains of 90 to 99 entries, around 96 keys in progress",
        make: chains,
    },
    Profile {
        name: "factor",
        about: "intersections of unions that share members",
        make: factor,
    },
    Profile {
        name: "narrow",
        about: "intersections of a variable and a negation",
        make: narrow,
    },
    Profile {
        name: "budget",
        about: "low budgets with more than 512 operations",
        make: budget,
    },
    Profile {
        name: "endless",
        about: "low budgets and variables whose fallbacks chain after the bail",
        make: endless,
    },
    Profile {
        name: "long",
        about: "tables at one of the ceilings",
        make: long,
    },
    Profile {
        name: "wide",
        about: "answers near 4,096 nodes, 16,384 cells or 65,536 bytes of listing",
        make: wide,
    },
];

/// Slow tables. They are no part of the series over all profiles, in which a
/// table is to take little time.
const SLOW_TABLES: Profile = Profile {
    name: "slow",
    about: "tables that take long for their size, as made by hand and bred",
    make: slow::slow,
};

/// Its number, after those of the others.
pub const SLOW: usize = PROFILES.len();

/// All of them, the slow one last.
pub fn profiles() -> impl Iterator<Item = &'static Profile> {
    PROFILES.iter().chain([&SLOW_TABLES])
}

fn draft(seed: u64, make: impl FnOnce(&mut Draft)) -> Table {
    let mut draft = Draft {
        table: Table {
            budget: u32::MAX,
            ..Table::default()
        },
        rng: Rng::new(seed),
    };
    make(&mut draft);
    draft.table
}

/// The table of a profile (by its place in the list) and a seed.
pub fn table(profile: usize, seed: u64) -> Table {
    let salt = (profile as u64 + 1).wrapping_mul(0xd6e8_feb8_6659_fd93);
    let make = PROFILES.get(profile).unwrap_or(&SLOW_TABLES).make;
    draft(seed ^ salt, make)
}

/// The table of a slow shape in its full size.
pub fn slow_table(shape: &slow::Shape) -> Table {
    draft(0, |d| (shape.make)(d, slow::QUARTERS))
}

/// The place of a profile in the list.
pub fn profile(name: &str) -> Option<usize> {
    profiles().position(|profile| profile.name == name)
}

/// The `index`th of an endless series over all profiles.
pub fn mixed(seed: u64, index: u64) -> (usize, Table) {
    let profiles = PROFILES.len() as u64;
    let profile = (index % profiles) as usize;
    (profile, table(profile, seed.wrapping_add(index / profiles)))
}

struct Draft {
    table: Table,
    rng: Rng,
}

impl Draft {
    fn n(&self) -> u32 {
        self.table.entries.len() as u32
    }

    fn add(&mut self, entry: Entry) -> u32 {
        self.table.entries.push(entry);
        self.n() - 1
    }

    fn var(&mut self, lowers: &[u32], uppers: &[u32]) -> u32 {
        self.add(Entry::Var {
            lowers: lowers.to_vec(),
            uppers: uppers.to_vec(),
        })
    }

    fn prim(&mut self) -> u32 {
        let code = self.rng.pick(&[0, 0, 0, 1, 1, 2, 2, 3, 3, 4, 5, 6, 7]);
        self.add(Entry::Prim(code))
    }

    /// An id already made.
    fn old(&mut self) -> u32 {
        let n = self.n();
        self.rng.range(0, n - 1)
    }

    /// Up to `most` ids already made.
    fn olds(&mut self, most: u32) -> Vec<u32> {
        let count = self.rng.range(0, most);
        (0..count).map(|_| self.old()).collect()
    }

    /// Names, ascending, with some that need escapes.
    fn names(&mut self, count: usize) {
        let mut pool: Vec<&[u8]> = vec![
            b"",
            b"-",
            b"__functor",
            b"a",
            b"b",
            b"c",
            b"t\tb",
            b"\\",
            b"\x7f",
            "\u{e9}".as_bytes(),
        ];
        self.rng.shuffle(&mut pool);
        pool.truncate(count);
        pool.sort();
        self.table.names = pool.into_iter().map(<[u8]>::to_vec).collect();
    }

    /// Names of which `__functor` is one.
    fn names_with_functor(&mut self) {
        self.names(3);
        if !self.table.names.iter().any(|name| name == b"__functor") {
            self.table.names.push(b"__functor".to_vec());
            self.table.names.sort();
        }
    }

    fn name(&mut self) -> u32 {
        self.rng.below(self.table.names.len()) as u32
    }

    /// A set over the names; `id` chooses the children.
    fn set(&mut self, id: fn(&mut Draft) -> u32) -> Set {
        let mut set = Set {
            open: self.rng.chance(1, 2),
            ..Set::default()
        };
        for key in 0..self.table.names.len() as u32 {
            if self.rng.chance(2, 5) {
                let child = id(self);
                set.fields.push((key, child));
            }
            if self.rng.chance(1, 4) {
                set.optional.push(key);
            }
        }
        if self.rng.chance(1, 4) {
            set.dyn_ty = Some(id(self));
        }
        set
    }

    fn root(&mut self, id: u32) {
        let positive = self.rng.chance(1, 2);
        self.table.roots.push(Root { id, positive });
    }

    fn both_roots(&mut self, id: u32) {
        for positive in [true, false] {
            self.table.roots.push(Root { id, positive });
        }
    }

    fn random_roots(&mut self, most: u32) {
        for _ in 0..self.rng.range(1, most) {
            let id = self.old();
            self.root(id);
        }
    }

    /// Pairs and marks, some of them out of range.
    fn random_pairs(&mut self, pairs: u32, marks: u32) {
        let n = self.n();
        for _ in 0..self.rng.range(0, pairs) {
            let pair = (self.rng.range(0, n + 1), self.rng.range(0, n + 1));
            self.table.pairs.push(pair);
        }
        for _ in 0..self.rng.range(0, marks) {
            let mark = self.rng.range(0, n);
            self.table.marks.push(mark);
        }
    }
}

fn dense(d: &mut Draft) {
    let names = d.rng.range(1, 3) as usize;
    d.names(names);
    let n = d.rng.range(2, 10);
    // Children may be any id, also of entries that are still to come.
    d.table.entries = vec![Entry::Prim(0); n as usize];
    for i in 0..n as usize {
        d.table.entries[i] = any_entry(d);
    }
    d.random_pairs(2, 1);
    d.random_roots(3);
}

fn any_entry(d: &mut Draft) -> Entry {
    match d.rng.range(0, 19) {
        0..=7 => Entry::Var {
            lowers: d.olds(4),
            uppers: d.olds(4),
        },
        8 | 9 => Entry::Prim(d.rng.range(0, 5)),
        10 => Entry::TyVar(d.rng.range(0, 12)),
        11 => Entry::List(d.old()),
        12 | 13 => Entry::Fn(d.old(), d.old()),
        14 => Entry::Set(d.set(Draft::old)),
        15 => Entry::Neg(d.old()),
        16 => Entry::Named(d.name(), d.old()),
        17 | 18 => Entry::Inter(d.old(), d.old()),
        _ => Entry::Union(d.old(), d.old()),
    }
}

fn prims(d: &mut Draft) {
    for _ in 0..d.rng.range(2, 4) {
        d.prim();
    }
    for _ in 0..d.rng.range(3, 10) {
        let entry = match d.rng.range(0, 7) {
            0 | 1 => Entry::Neg(d.old()),
            2 | 3 => Entry::Union(d.old(), d.old()),
            4 | 5 => Entry::Inter(d.old(), d.old()),
            _ => Entry::Var {
                lowers: d.olds(4),
                uppers: d.olds(4),
            },
        };
        d.add(entry);
    }
    let last = d.n() - 1;
    d.both_roots(last);
    d.random_roots(2);
}

fn sets(d: &mut Draft) {
    d.names_with_functor();
    for _ in 0..d.rng.range(1, 2) {
        d.prim();
    }
    d.var(&[], &[]);
    let tyvar = d.rng.range(0, 9);
    d.add(Entry::TyVar(tyvar));
    for _ in 0..d.rng.range(2, 4) {
        let set = d.set(Draft::old);
        d.add(Entry::Set(set));
    }
    for _ in 0..d.rng.range(2, 8) {
        let entry = match d.rng.range(0, 10) {
            0 | 1 => Entry::Set(d.set(Draft::old)),
            2 | 3 => Entry::Inter(d.old(), d.old()),
            4 => Entry::Union(d.old(), d.old()),
            5 => Entry::Neg(d.old()),
            6 => Entry::Fn(d.old(), d.old()),
            7 => Entry::List(d.old()),
            8 => Entry::Named(d.name(), d.old()),
            _ => Entry::Var {
                lowers: d.olds(4),
                uppers: d.olds(4),
            },
        };
        d.add(entry);
    }
    let (lowers, uppers) = (d.olds(4), d.olds(4));
    let last = d.var(&lowers, &uppers);
    d.both_roots(last);
    d.random_roots(2);
}

fn pairs(d: &mut Draft) {
    d.names(2);
    d.prim();
    d.prim();
    let vars = d.rng.range(3, 7);
    let first = d.n();
    for _ in 0..vars {
        let (mut lowers, mut uppers) = (Vec::new(), Vec::new());
        for bounds in [&mut lowers, &mut uppers] {
            for _ in 0..d.rng.range(0, 2) {
                bounds.push(d.rng.range(0, first + vars - 1));
            }
        }
        d.var(&lowers, &uppers);
    }
    for _ in 0..d.rng.range(1, 3) {
        let entry = match d.rng.range(0, 4) {
            0 => Entry::List(d.old()),
            1 => Entry::Named(d.name(), d.old()),
            2 => Entry::Union(d.old(), d.old()),
            _ => Entry::Fn(d.old(), d.old()),
        };
        d.add(entry);
    }
    let whole = Entry::Fn(d.old(), d.old());
    let last = d.add(whole);
    d.random_pairs(6, 4);
    d.root(last);
    d.random_roots(3);
}

fn tyvars(d: &mut Draft) {
    let n = d.rng.range(5, 9);
    d.var(&[], &[]);
    d.prim();
    while d.n() < n {
        let number = match d.rng.range(0, 5) {
            0..=2 => d.rng.range(0, n - 1),
            3 => d.rng.range(n, n + 2),
            _ => d.rng.pick(&[n, 4_294_967_295, 2_048]),
        };
        let entry = match d.rng.range(0, 7) {
            0..=2 => Entry::TyVar(number),
            3 => Entry::Union(d.old(), d.old()),
            4 => Entry::Inter(d.old(), d.old()),
            5 => Entry::Fn(d.old(), d.old()),
            _ => Entry::Var {
                lowers: d.olds(3),
                uppers: d.olds(3),
            },
        };
        d.add(entry);
    }
    d.random_pairs(2, 1);
    d.random_roots(4);
}

fn bounds16(d: &mut Draft) {
    for _ in 0..d.rng.range(1, 6) {
        d.prim();
    }
    for _ in 0..d.rng.range(0, 3) {
        let entry = match d.rng.range(0, 3) {
            0 => Entry::Neg(d.old()),
            1 => Entry::List(d.old()),
            2 => Entry::Union(d.old(), d.old()),
            _ => Entry::Var {
                lowers: d.olds(3),
                uppers: d.olds(3),
            },
        };
        d.add(entry);
    }
    let lists: Vec<Vec<u32>> = (0..2)
        .map(|_| {
            let count = d.rng.range(14, 19);
            (0..count).map(|_| d.old()).collect()
        })
        .collect();
    let var = d.var(&lists[0], &lists[1]);
    let whole = d.add(Entry::Fn(var, var));
    d.both_roots(var);
    d.root(whole);
}

fn bounds64(d: &mut Draft) {
    if d.rng.chance(1, 8) {
        return union_of_equals(d);
    }
    let count = match d.rng.range(0, 9) {
        0 => d.rng.range(126, 130),
        _ => d.rng.range(62, 68),
    };
    // Few kinds of members, so that duplicates and cancelled pairs occur.
    let kinds: Vec<u32> = (0..d.rng.range(1, 3)).map(|_| d.rng.range(0, 9)).collect();
    let prim = d.prim();
    let mut members = Vec::new();
    for _ in 0..count {
        let kind = d.rng.pick(&kinds);
        let entry = match kind {
            0..=3 => Entry::Prim(d.rng.pick(&[0, 0, 0, 0, 1, 3])),
            4 | 5 => Entry::Neg(prim),
            6 => Entry::TyVar(d.rng.range(0, 300)),
            7 => Entry::List(prim),
            8 => Entry::Union(prim, d.old()),
            _ => Entry::Set(Set {
                open: d.rng.chance(1, 2),
                ..Set::default()
            }),
        };
        members.push(d.add(entry));
    }
    if d.rng.chance(1, 4) {
        let old = members[0];
        members.push(old);
    }
    let var = match d.rng.range(0, 2) {
        0 => d.var(&members, &[]),
        1 => d.var(&[], &members),
        _ => d.var(&members, &[prim]),
    };
    let whole = d.add(Entry::Fn(var, var));
    d.both_roots(var);
    d.root(whole);
}

/// A union of equal members beside one that has the member once: all of the
/// first is shared, though but one member is.
fn union_of_equals(d: &mut Draft) {
    let (prim, other) = (d.prim(), d.prim());
    let equal = d.table.entries[prim as usize].clone();
    let members: Vec<u32> = (0..65).map(|_| d.add(equal.clone())).collect();
    let var = d.var(&members, &[]);
    let union = d.add(Entry::Union(prim, other));
    let inter = match d.rng.chance(3, 4) {
        true => Entry::Inter(union, var),
        false => Entry::Inter(var, union),
    };
    let inter = d.add(inter);
    d.both_roots(inter);
}

fn chains(d: &mut Draft) {
    d.names(2);
    let depth = d.rng.range(90, 99);
    let mix = d.rng.chance(2, 3);
    let mut last = match d.rng.range(0, 2) {
        0 => d.var(&[], &[]),
        _ => d.prim(),
    };
    for _ in 0..depth {
        let kind = if mix { d.rng.range(0, 6) } else { 0 };
        let entry = match kind {
            0 => Entry::List(last),
            1 => Entry::Fn(last, 0),
            2 => Entry::Fn(0, last),
            3 => Entry::Named(d.name(), last),
            4 => Entry::Neg(last),
            5 => Entry::Set(Set {
                fields: vec![(d.name(), last)],
                open: d.rng.chance(1, 2),
                ..Set::default()
            }),
            _ => Entry::Var {
                lowers: vec![last],
                uppers: vec![last],
            },
        };
        last = d.add(entry);
    }
    d.root(last);
    if d.rng.chance(1, 2) {
        d.both_roots(last - 1);
    }
}

fn factor(d: &mut Draft) {
    d.names(1);
    // Members that are not disjoint, so that the contradiction test passes.
    let empty = d.add(Entry::Set(Set {
        open: true,
        ..Set::default()
    }));
    let prim = d.prim();
    let mut members = vec![prim];
    for _ in 0..d.rng.range(3, 5) {
        let entry = match d.rng.range(0, 4) {
            0 => Entry::List(d.old()),
            1 => Entry::Fn(empty, d.old()),
            2 => Entry::Neg(d.old()),
            3 => Entry::Prim(d.rng.range(0, 5)),
            _ => Entry::Named(0, d.old()),
        };
        members.push(d.add(entry));
    }
    let mut unions = Vec::new();
    for _ in 0..d.rng.range(1, 4) {
        let mut union = d.rng.pick(&members);
        for _ in 0..d.rng.range(1, 3) {
            let (member, first) = (d.rng.pick(&members), d.rng.chance(1, 2));
            let entry = match first {
                true => Entry::Union(member, union),
                false => Entry::Union(union, member),
            };
            union = d.add(entry);
        }
        unions.push(union);
    }
    if d.rng.chance(1, 3) {
        let member = d.rng.pick(&members);
        unions.push(member);
    }
    let var = d.var(&[], &unions);
    let inter = Entry::Inter(unions[0], d.rng.pick(&unions));
    let inter = d.add(inter);
    let list = d.add(Entry::List(var));
    d.table.roots.push(Root {
        id: var,
        positive: false,
    });
    d.both_roots(inter);
    d.root(list);
}

fn narrow(d: &mut Draft) {
    d.names_with_functor();
    for _ in 0..2 {
        d.prim();
    }
    for _ in 0..d.rng.range(1, 3) {
        let set = d.set(Draft::old);
        d.add(Entry::Set(set));
    }
    let concrete = d.n();
    let union = Entry::Union(d.old(), d.old());
    d.add(union);
    for _ in 0..d.rng.range(1, 2) {
        let (lowers, uppers) = (d.olds(2), d.olds(3));
        d.var(&lowers, &uppers);
    }
    let var = d.n() - 1;
    for _ in 0..d.rng.range(1, 3) {
        let inner = d.rng.range(0, concrete);
        let neg = d.add(Entry::Neg(inner));
        let entry = match d.rng.range(0, 5) {
            0..=2 => Entry::Inter(var, neg),
            3 | 4 => Entry::Inter(neg, var),
            _ => Entry::Inter(d.old(), neg),
        };
        let inter = d.add(entry);
        if d.rng.chance(1, 3) {
            let other = d.old();
            d.add(Entry::Inter(inter, other));
        }
    }
    let last = d.n() - 1;
    let whole = d.add(Entry::Fn(var, last));
    d.random_pairs(1, 1);
    d.both_roots(last);
    d.root(whole);
}

/// A budget near the counts at which it is looked at.
fn low_budget(d: &mut Draft) {
    d.table.budget = match d.rng.range(0, 5) {
        0 => 0,
        1 => 511,
        2 => 512,
        3 => d.rng.range(513, 1023),
        4 => d.rng.range(1024, 2100),
        _ => d.rng.pick(&[1023, 1024, 1025]),
    };
}

/// `count` ids, each already made, for lists that take many operations.
fn many_olds(d: &mut Draft, count: u32) -> Vec<u32> {
    (0..count).map(|_| d.old()).collect()
}

/// An entry that takes about 18 operations for each level, in few bytes.
fn spin(d: &mut Draft, levels: u32) -> u32 {
    let mut last = d.prim();
    for _ in 0..levels {
        let bounds = vec![last; 16];
        let var = d.var(&bounds, &bounds);
        last = d.add(Entry::List(var));
    }
    last
}

/// The first pass bails below a variable that has shown both polarities by
/// then; the second answers that variable at once and doesn't bail.
fn first_pass_bails(d: &mut Draft) {
    let levels = d.rng.range(28, 36);
    let slow = spin(d, levels);
    let between = d.var(&[slow], &[slow]);
    let prim = d.prim();
    let both = d.var(&[between], &[prim]);
    let whole = d.add(Entry::Fn(both, both));
    d.both_roots(whole);
    d.random_pairs(1, 1);
}

fn budget(d: &mut Draft) {
    low_budget(d);
    if d.rng.chance(1, 8) {
        return first_pass_bails(d);
    }
    d.names(2);
    d.var(&[], &[]);
    let levels = d.rng.range(2, 20);
    let slow = spin(d, levels);
    // Bounds that are no variables, so that all of them are visited.
    let prim = d.prim();
    let mut concrete = vec![slow, prim];
    for _ in 0..d.rng.range(8, 18) {
        let bounds: Vec<Vec<u32>> = (0..2)
            .map(|_| (0..13).map(|_| d.rng.pick(&concrete)).collect())
            .collect();
        let var = d.var(&bounds[0], &bounds[1]);
        let entry = match d.rng.range(0, 6) {
            0 | 1 => Entry::Fn(var, var),
            2 => Entry::Fn(var, d.rng.pick(&concrete)),
            3 => Entry::Set(d.set(Draft::old)),
            4 => Entry::Union(var, d.old()),
            5 => Entry::Named(d.name(), var),
            _ => Entry::List(var),
        };
        concrete.push(d.add(entry));
    }
    let last = d.n() - 1;
    let whole = d.add(Entry::Fn(slow, last));
    d.random_pairs(3, 2);
    d.both_roots(whole);
}

fn endless(d: &mut Draft) {
    low_budget(d);
    let prim = d.prim();
    let neg = d.add(Entry::Neg(prim));
    let bare = d.var(&[], &[]);
    let list = d.add(Entry::List(prim));
    let levels = d.rng.range(24, 28);
    let slow = spin(d, levels);
    let mut last = list;
    for _ in 0..d.rng.range(6, 14) {
        // Falls back either way if the bail comes at one of its bounds.
        let upper = d.rng.pick(&[prim, prim, neg, list]);
        let lower = d.rng.pick(&[prim, bare, list]);
        let var = d.var(&[lower], &[upper]);
        if d.rng.chance(1, 6) {
            d.table.marks.push(var);
        }
        let entry = match d.rng.range(0, 2) {
            0 => Entry::Fn(last, var),
            1 => Entry::Fn(var, last),
            _ => Entry::Union(var, last),
        };
        last = d.add(entry);
    }
    let whole = d.add(Entry::Fn(slow, last));
    d.random_pairs(3, 0);
    d.both_roots(whole);
}

fn long(d: &mut Draft) {
    match d.rng.range(0, 6) {
        0 => long_text(d),
        1 => many_names(d),
        2 => many_entries(d),
        3 => many_ids(d),
        4 => many_pairs(d),
        5 => many_marks(d),
        _ => many_roots(d),
    }
}

/// 65,536 bytes of text, filled with names.
fn long_text(d: &mut Draft) {
    let word = b"name\t\n".len();
    let full = word + 255;
    d.prim();
    d.var(&[0], &[]);
    d.both_roots(1);
    let mut left = 65_536 - d.table.to_text().len();
    let mut lines = Vec::new();
    while left >= 2 * full {
        lines.push(full);
        left -= full;
    }
    // Two shorter ones fill the rest exactly.
    lines.extend([left / 2, left - left / 2]);
    let names = lines.iter().enumerate();
    d.table.names = names.map(|(i, line)| padded_name(i, line - word)).collect();
}

fn padded_name(number: usize, length: usize) -> Vec<u8> {
    let mut name = format!("{number:04}").into_bytes();
    name.resize(length, b'x');
    name
}

/// 1,024 names, with a set over some of them.
fn many_names(d: &mut Draft) {
    d.table.names = (0..1_024).map(|i| padded_name(i, 4)).collect();
    d.prim();
    d.var(&[], &[]);
    let fields: Vec<(u32, u32)> = (0..1_024)
        .filter(|_| d.rng.chance(1, 20))
        .map(|key| (key, key % 2))
        .collect();
    let optional = fields.iter().map(|field| field.0).collect();
    let set = d.add(Entry::Set(Set {
        fields,
        optional,
        ..Set::default()
    }));
    let named = d.add(Entry::Named(1_023, set));
    d.both_roots(named);
}

/// 2,048 entries, of which few are reached.
fn many_entries(d: &mut Draft) {
    while d.n() < 2_044 {
        match d.rng.range(0, 3) {
            0 => d.prim(),
            _ => d.var(&[], &[]),
        };
    }
    let (lowers, uppers) = (many_olds(d, 15), many_olds(d, 15));
    let var = d.var(&lowers, &uppers);
    let list = d.add(Entry::List(var));
    d.add(Entry::Union(var, list));
    let whole = d.add(Entry::Fn(var, list));
    d.both_roots(whole);
}

/// 8,192 ids in bounds.
fn many_ids(d: &mut Draft) {
    d.prim();
    d.prim();
    d.var(&[], &[]);
    d.add(Entry::Neg(0));
    for _ in 0..10 {
        let (lowers, uppers) = (many_olds(d, 409), many_olds(d, 409));
        d.var(&lowers, &uppers);
    }
    // 1 id of the neg and 8,180 so far.
    let (last, lowers) = (d.n() - 1, many_olds(d, 9));
    d.var(&lowers, &[last, 0]);
    let last = d.n() - 1;
    d.both_roots(last);
}

/// 2,048 pairs over few variables.
fn many_pairs(d: &mut Draft) {
    let vars = d.rng.range(5, 60);
    for _ in 0..vars {
        d.var(&[], &[]);
    }
    let prim = d.prim();
    let var = d.var(&[prim], &[]);
    let whole = d.add(Entry::Fn(var, 0));
    for _ in 0..2_048 {
        let pair = (d.rng.range(0, vars + 3), d.rng.range(0, vars + 3));
        d.table.pairs.push(pair);
    }
    d.both_roots(whole);
}

/// 512 marks.
fn many_marks(d: &mut Draft) {
    let prim = d.prim();
    for _ in 0..20 {
        d.var(&[prim], &[]);
    }
    for _ in 0..512 {
        let mark = d.rng.range(0, 15);
        d.table.marks.push(mark);
    }
    for id in [5, 18, 20] {
        d.both_roots(id);
    }
}

/// 64 roots.
fn many_roots(d: &mut Draft) {
    prims(d);
    d.table.roots.clear();
    for _ in 0..64 {
        let id = d.old();
        d.root(id);
    }
}

fn wide(d: &mut Draft) {
    match d.rng.range(0, 2) {
        0 => {
            // Three nodes for a leaf and two for each lambda above.
            let leaves = d.rng.range(760, 840);
            let tree = lambda_tree(d, leaves);
            d.root(tree);
        }
        1 => many_cells(d),
        _ => {
            let leaves = d.rng.range(268, 286);
            let tree = lambda_tree(d, leaves);
            for _ in 0..3 {
                d.root(tree);
            }
        }
    }
}

/// Lambdas over distinct variables, each reached in both polarities.
fn lambda_tree(d: &mut Draft, leaves: u32) -> u32 {
    let (lower, upper) = (d.prim(), d.prim());
    let level: Vec<u32> = (0..leaves).map(|_| d.var(&[lower], &[upper])).collect();
    let top = paired(d, level, Entry::Fn);
    d.add(Entry::Fn(top, top))
}

/// Two and two of these in one entry, and those again, until there is one.
fn paired(d: &mut Draft, mut level: Vec<u32>, make: fn(u32, u32) -> Entry) -> u32 {
    while level.len() > 1 {
        level = level
            .chunks(2)
            .map(|pair| match *pair {
                [a, b] => d.add(make(a, b)),
                _ => pair[0],
            })
            .collect();
    }
    level[0]
}

/// Unions of 2, 3, 4 and more members, each with one more than the last, and
/// their negations in the fields of a set.
fn many_cells(d: &mut Draft) {
    let most = d.rng.range(122, 128);
    d.table.names = (0..most).map(|i| padded_name(i as usize, 4)).collect();
    let prim = d.prim();
    let mut union = d.add(Entry::Named(0, prim));
    let mut set = Set::default();
    for key in 1..most {
        let member = d.add(Entry::Named(key, prim));
        union = d.add(Entry::Union(union, member));
        let neg = d.add(Entry::Neg(union));
        set.fields.push((key, neg));
    }
    let set = d.add(Entry::Set(set));
    d.root(set);
}
