//! Vectors of canon_numbered: small tables with a root that has two or more
//! variables, and other numbers of them than canon's.

use std::collections::{BTreeMap, BTreeSet};

use super::{is_usable, record};
use crate::gen::{self, PROFILES};
use crate::{run, Answer, Form, Node, RootAnswer};

/// Seeds looked at in each profile.
const SEEDS: u64 = 200;
/// The most bytes of table and listing.
const MOST_BYTES: usize = 700;
/// Tables wanted for each place in which a variable stands.
const EACH_PLACE: u32 = 5;

/// A table that may be a vector, and the places of its variables.
struct Candidate {
    record: Vec<u8>,
    places: BTreeSet<&'static str>,
}

/// Tables for places that have too few, the profiles in turn.
pub fn records() -> impl Iterator<Item = Vec<u8>> {
    let mut per_place = BTreeMap::<&str, u32>::new();
    let seeds = (0..SEEDS).flat_map(|seed| (0..PROFILES.len()).map(move |p| (p, seed)));
    let candidates = seeds.filter_map(|(profile, seed)| candidate(profile, seed));
    let chosen = candidates.filter(move |candidate| {
        let few = |place: &&str| per_place.get(place).is_none_or(|&n| n < EACH_PLACE);
        let wanted = candidate.places.iter().any(few);
        if wanted {
            for place in &candidate.places {
                *per_place.entry(place).or_default() += 1;
            }
        }
        wanted
    });
    chosen.map(|candidate| candidate.record)
}

fn candidate(profile: usize, seed: u64) -> Option<Candidate> {
    let table = gen::table(profile, seed);
    let answers = run::run(Form::Numbered, &table)?;
    let record = record(Form::Numbered, &table, &answers);
    if record.len() > MOST_BYTES || !answers.iter().all(is_usable) {
        return None;
    }
    let plain = run::run(Form::Plain, &table)?;
    let roots = answers.iter().zip(&plain).filter(|(a, b)| a != b);
    let places = roots.flat_map(|(answer, _)| places(answer)).collect();
    Some(Candidate { record, places })
}

/// Where the variables of a root stand that has two or more of them.
fn places(root: &RootAnswer) -> BTreeSet<&'static str> {
    let Answer::Shown(shown) = &root.answer else {
        return BTreeSet::new();
    };
    let nodes = &shown.nodes;
    let is_variable = |node: &Node| matches!(node, Node::TyVar(_));
    if nodes.iter().filter(|node| is_variable(node)).count() < 2 {
        return BTreeSet::new();
    }
    let children = nodes.iter().flat_map(children);
    let variables = children.filter(|&(_, child)| is_variable(&nodes[child as usize]));
    variables.map(|(place, _)| place).collect()
}

/// The children of a node, each with the name of its place.
fn children(node: &Node) -> Vec<(&'static str, u32)> {
    let all = |place, children: &[u32]| children.iter().map(|&child| (place, child)).collect();
    match node {
        Node::TyVar(_) | Node::Prim(_) | Node::Bottom | Node::Top => Vec::new(),
        Node::List(a) => vec![("list", *a)],
        Node::Fn(param, body) => vec![("param", *param), ("body", *body)],
        Node::Set(set) => {
            let fields = set.fields.iter().map(|&(_, a)| ("field", a));
            fields.chain(set.dyn_ty.map(|a| ("dyn", a))).collect()
        }
        Node::Union(members) => all("union", members),
        Node::Inter(members) => all("inter", members),
        Node::Named(_, a) => vec![("named", *a)],
        Node::Neg(a) => vec![("neg", *a)],
    }
}
