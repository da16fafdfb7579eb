//! Tables made entry by entry, for edges and for the stack.

use oracle::table::Entry;
use oracle::{Root, Set, Table};

/// A table in the making; ids are given out in order.
#[derive(Default)]
pub struct Draft {
    table: Table,
}

impl Draft {
    /// With the names 0000, 0001 and so on.
    pub fn with_names(count: u32) -> Self {
        let mut draft = Draft::default();
        let names = (0..count).map(|number| format!("{number:04}").into_bytes());
        draft.table.names.extend(names);
        draft
    }

    fn entry(&mut self, entry: Entry) -> u32 {
        self.table.entries.push(entry);
        self.table.entries.len() as u32 - 1
    }

    pub fn prim(&mut self, code: u32) -> u32 {
        self.entry(Entry::Prim(code))
    }

    pub fn tyvar(&mut self, number: u32) -> u32 {
        self.entry(Entry::TyVar(number))
    }

    pub fn list(&mut self, a: u32) -> u32 {
        self.entry(Entry::List(a))
    }

    pub fn neg(&mut self, a: u32) -> u32 {
        self.entry(Entry::Neg(a))
    }

    pub fn lambda(&mut self, a: u32, b: u32) -> u32 {
        self.entry(Entry::Fn(a, b))
    }

    pub fn union(&mut self, a: u32, b: u32) -> u32 {
        self.entry(Entry::Union(a, b))
    }

    pub fn inter(&mut self, a: u32, b: u32) -> u32 {
        self.entry(Entry::Inter(a, b))
    }

    pub fn named(&mut self, name: u32, a: u32) -> u32 {
        self.entry(Entry::Named(name, a))
    }

    pub fn var(&mut self, lowers: &[u32], uppers: &[u32]) -> u32 {
        self.entry(Entry::Var {
            lowers: lowers.to_vec(),
            uppers: uppers.to_vec(),
        })
    }

    /// A closed set; its keys are 0 upward.
    pub fn set(&mut self, fields: &[u32], optional: &[u32]) -> u32 {
        let fields = (0..).zip(fields.iter().copied()).collect();
        self.closed(fields, optional)
    }

    /// A closed set of keys with their types.
    pub fn set_of(&mut self, fields: &[(u32, u32)]) -> u32 {
        self.closed(fields.to_vec(), &[])
    }

    fn closed(&mut self, fields: Vec<(u32, u32)>, optional: &[u32]) -> u32 {
        self.entry(Entry::Set(Set {
            fields,
            dyn_ty: None,
            open: false,
            optional: optional.to_vec(),
        }))
    }

    /// A list around a list around `a`, `count` times; the ids of all.
    pub fn lists(&mut self, a: u32, count: u32) -> Vec<u32> {
        let mut made = Vec::new();
        let mut last = a;
        for _ in 0..count {
            last = self.list(last);
            made.push(last);
        }
        made
    }

    /// Lambdas, two and two, over variables that are reached in both
    /// polarities. In the second pass each leaf gives three nodes and each
    /// lambda two, but for the topmost.
    pub fn tree(&mut self, leaves: u32, lower: u32, upper: u32) -> u32 {
        let mut level: Vec<u32> = (0..leaves).map(|_| self.var(&[lower], &[upper])).collect();
        while level.len() > 1 {
            level = level
                .chunks(2)
                .map(|pair| match *pair {
                    [a, b] => self.lambda(a, b),
                    _ => pair[0],
                })
                .collect();
        }
        self.lambda(level[0], level[0])
    }

    /// Levels of a ladder: each is the union of two intersections, of the union
    /// below with either side. The topmost union.
    pub fn levels(&mut self, below: u32, sides: [u32; 2], count: u32) -> u32 {
        (0..count).fold(below, |below, _| {
            let [a, b] = sides.map(|side| self.inter(below, side));
            self.union(a, b)
        })
    }

    /// For each k from 2 on a union of the first k of these entries, and its
    /// negation; the ids of the negations.
    pub fn negated_unions(&mut self, members: &[u32]) -> Vec<u32> {
        let mut union = members[0];
        let unions: Vec<u32> = members[1..]
            .iter()
            .map(|&member| {
                union = self.union(union, member);
                union
            })
            .collect();
        unions.into_iter().map(|union| self.neg(union)).collect()
    }

    pub fn pair(&mut self, a: u32, b: u32) {
        self.table.pairs.push((a, b));
    }

    pub fn root(&mut self, id: u32) {
        let positive = true;
        self.table.roots.push(Root { id, positive });
    }

    pub fn negative_root(&mut self, id: u32) {
        let positive = false;
        self.table.roots.push(Root { id, positive });
    }

    /// The text with this root.
    pub fn rooted(mut self, id: u32) -> Vec<u8> {
        self.root(id);
        self.text()
    }

    pub fn text(&self) -> Vec<u8> {
        self.text_with(u32::MAX)
    }

    pub fn text_with(&self, budget: u32) -> Vec<u8> {
        let table = self.table.clone();
        Table { budget, ..table }.to_text()
    }
}

/// Text in which a tab is written `>`.
pub fn tabs(text: &str) -> Vec<u8> {
    text.replace('>', "\t").into_bytes()
}
