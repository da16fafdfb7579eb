//! Runs the text over a table: the table becomes the text's storage, each
//! root's answer becomes plain nodes in listing order.

use std::collections::BTreeMap;

use crate::probe;
use crate::shims::smol_str::SmolStr;
use crate::table::{Entry, Root, Set, Table};
use crate::text::lang_check::collect::canonicalize_standalone;
use crate::text::lang_check::storage::{TypeEntry, TypeStorage, TypeVariable};
use crate::text::lang_check::{Polarity, TyId};
use crate::text::lang_ty::{AttrSetTy, OutputTy, PrimitiveTy, Ty, TyRef, TypeArena};
use crate::{Answer, Form, Measures, Node, RootAnswer, Shown};

/// Enough for two polarities of 2,048 entries in progress, and for negation
/// of the deepest type they can give.
const STACK_BYTES: usize = 256 << 20;

/// The text's counterparts of the primitive codes 0 to 7.
const PRIMITIVES: [PrimitiveTy; 8] = [
    PrimitiveTy::Int,
    PrimitiveTy::Float,
    PrimitiveTy::Number,
    PrimitiveTy::Null,
    PrimitiveTy::Bool,
    PrimitiveTy::String,
    PrimitiveTy::Path,
    PrimitiveTy::Uri,
];

/// Runs `f` on a thread with a stack that the text's recursion fits in.
pub fn on_large_stack<R: Send>(f: impl FnOnce() -> R + Send) -> R {
    std::thread::scope(|scope| {
        let thread = std::thread::Builder::new()
            .stack_size(STACK_BYTES)
            .spawn_scoped(scope, f)
            .expect("a thread can be started");
        match thread.join() {
            Ok(result) => result,
            Err(panic) => std::panic::resume_unwind(panic),
        }
    })
}

/// Answers to the roots, or none for a table outside the text's domain: a
/// primitive without a counterpart or a name that is not UTF-8.
pub fn run(form: Form, table: &Table) -> Option<Vec<RootAnswer>> {
    let names = names(table)?;
    let storage = storage(table, &names)?;
    let budget = u64::from(table.budget);
    let roots = table.roots.iter();
    Some(
        roots
            .map(|&root| run_root(form, &storage, budget, &names, root))
            .collect(),
    )
}

fn names(table: &Table) -> Option<Vec<SmolStr>> {
    let names = table.names.iter();
    names
        .map(|name| std::str::from_utf8(name).ok().map(SmolStr::from))
        .collect()
}

fn storage(table: &Table, names: &[SmolStr]) -> Option<TypeStorage> {
    let mut storage = TypeStorage::new();
    for entry in &table.entries {
        storage.entries.push(type_entry(entry, names)?);
    }
    for &(a, b) in &table.pairs {
        storage.record_equiv(TyId::from(a), TyId::from(b));
    }
    for &id in &table.marks {
        storage.mark_default_param(TyId::from(id));
    }
    Some(storage)
}

fn type_entry(entry: &Entry, names: &[SmolStr]) -> Option<TypeEntry> {
    let id = |id: &u32| TyId::from(*id);
    let ty = match entry {
        Entry::Var { lowers, uppers } => {
            return Some(TypeEntry::Variable(TypeVariable {
                lower_bounds: lowers.iter().map(id).collect(),
                upper_bounds: uppers.iter().map(id).collect(),
                level: 0,
            }))
        }
        Entry::Prim(code) => Ty::Primitive(*PRIMITIVES.get(*code as usize)?),
        Entry::TyVar(number) => Ty::TyVar(*number),
        Entry::List(a) => Ty::List(id(a)),
        Entry::Fn(a, b) => Ty::Lambda {
            param: id(a),
            body: id(b),
        },
        Entry::Set(set) => Ty::AttrSet(attrset(set, names)),
        Entry::Neg(a) => Ty::Neg(id(a)),
        Entry::Named(name, a) => Ty::Named(names[*name as usize].clone(), id(a)),
        Entry::Inter(a, b) => Ty::Inter(id(a), id(b)),
        Entry::Union(a, b) => Ty::Union(id(a), id(b)),
    };
    Some(TypeEntry::Concrete(ty))
}

fn attrset(set: &Set, names: &[SmolStr]) -> AttrSetTy<TyId> {
    let name = |key: &u32| names[*key as usize].clone();
    let fields = set.fields.iter();
    AttrSetTy {
        fields: fields.map(|(k, a)| (name(k), TyId::from(*a))).collect(),
        dyn_ty: set.dyn_ty.map(TyId::from),
        open: set.open,
        optional_fields: set.optional.iter().map(name).collect(),
    }
}

fn run_root(
    form: Form,
    storage: &TypeStorage,
    budget: u64,
    names: &[SmolStr],
    root: Root,
) -> RootAnswer {
    let polarity = match root.positive {
        true => Polarity::Positive,
        false => Polarity::Negative,
    };
    probe::start(budget);
    let (mut arena, ty) = canonicalize_standalone(storage, TyId::from(root.id), polarity);
    // What is stored from here on is none of the run's.
    let record = probe::record();
    let answer = if record.endless {
        Answer::Endless
    } else if record.too_long() {
        Answer::TooLong
    } else {
        Answer::Shown(Shown {
            passes: record.passes,
            operations: record.operations,
            sorted: record.sorted,
            bailed: record.bailed,
            first_alone: record.first_alone,
            nodes: nodes(form, &mut arena, names, ty),
        })
    };
    RootAnswer {
        root,
        answer,
        measures: Measures {
            keys: record.keys,
            list: record.list,
            nodes: record.most_nodes,
            cells: record.most_cells,
        },
    }
}

fn nodes(form: Form, arena: &mut TypeArena, names: &[SmolStr], ty: TyRef) -> Vec<Node> {
    let ty = match form {
        Form::Plain => ty,
        Form::Numbered => arena.normalize_vars(ty),
    };
    Walk::new(arena, names).nodes(ty)
}

/// The walk that numbers the nodes below a root: depth first, children left
/// to right, each node once, after its children.
struct Walk<'a> {
    arena: &'a TypeArena,
    names: &'a [SmolStr],
    numbers: BTreeMap<usize, u32>,
    nodes: Vec<Node>,
}

impl<'a> Walk<'a> {
    fn new(arena: &'a TypeArena, names: &'a [SmolStr]) -> Self {
        Walk {
            arena,
            names,
            numbers: BTreeMap::new(),
            nodes: Vec::new(),
        }
    }

    fn nodes(mut self, root: TyRef) -> Vec<Node> {
        self.number(root);
        self.nodes
    }

    fn number(&mut self, ty: TyRef) -> u32 {
        if let Some(&number) = self.numbers.get(&ty.index()) {
            return number;
        }
        let node = self.node(ty);
        let number = self.nodes.len() as u32;
        self.nodes.push(node);
        self.numbers.insert(ty.index(), number);
        number
    }

    fn node(&mut self, ty: TyRef) -> Node {
        let arena = self.arena;
        match &arena[ty] {
            OutputTy::TyVar(number) => Node::TyVar(*number),
            OutputTy::Primitive(primitive) => Node::Prim(code(*primitive)),
            OutputTy::List(a) => Node::List(self.number(*a)),
            OutputTy::Lambda { param, body } => {
                let param = self.number(*param);
                Node::Fn(param, self.number(*body))
            }
            OutputTy::AttrSet(attr) => Node::Set(self.set(attr)),
            OutputTy::Union(members) => Node::Union(self.numbers(members)),
            OutputTy::Intersection(members) => Node::Inter(self.numbers(members)),
            OutputTy::Named(name, a) => Node::Named(self.key(name), self.number(*a)),
            OutputTy::Neg(a) => Node::Neg(self.number(*a)),
            OutputTy::Bottom => Node::Bottom,
            OutputTy::Top => Node::Top,
            OutputTy::Extern(_) => unreachable!("frozen entries are refused"),
        }
    }

    fn numbers(&mut self, members: &[TyRef]) -> Vec<u32> {
        members.iter().map(|&member| self.number(member)).collect()
    }

    fn set(&mut self, attr: &AttrSetTy<TyRef>) -> Set {
        let mut set = Set {
            open: attr.open,
            ..Set::default()
        };
        for (name, &a) in &attr.fields {
            let key = self.key(name);
            set.fields.push((key, self.number(a)));
        }
        set.dyn_ty = attr.dyn_ty.map(|a| self.number(a));
        set.optional = attr.optional_fields.iter().map(|n| self.key(n)).collect();
        set
    }

    /// The number of a name. Names ascend by bytes, and so does str's order.
    fn key(&self, name: &SmolStr) -> u32 {
        let at = self.names.binary_search(name);
        at.expect("every key is a name of the table") as u32
    }
}

fn code(primitive: PrimitiveTy) -> u32 {
    let at = PRIMITIVES.iter().position(|&p| p == primitive);
    at.expect("every primitive has a code") as u32
}
