//! Refusal 7: the members of a list.

use super::edge::Edges;
use crate::input::draft::Draft;

pub fn members(edges: &mut Edges) {
    let bounds = |count: u32| {
        let mut draft = Draft::default();
        let ids: Vec<u32> = (1..=count).collect();
        draft.var(&ids, &[]);
        for _ in 0..count {
            draft.prim(0);
        }
        draft.rooted(0)
    };
    edges.root("128 bounds", bounds(128), "root>0>+>1>129>0>0>2");
    edges.root("129 bounds", bounds(129), "refused>0>+>7");
    let mut draft = Draft::default();
    draft.var(&[1; 129], &[]);
    draft.prim(0);
    draft.root(0);
    edges.root("129 times one id", draft.text(), "root>0>+>1>2>0>0>1");
    flattened_members(edges);
    stored_members(edges);
    keys_before_members(edges);
    let mut draft = Draft::with_names(200);
    let prim = draft.prim(0);
    let set = draft.set(&[prim; 200], &[]);
    draft.root(set);
    edges.root(
        "fields are no members",
        draft.text(),
        "root>1>+>1>201>0>0>2",
    );
}

/// Two unions, each short enough, that are too long together.
fn flattened_members(edges: &mut Edges) {
    let table = |count: u32| {
        let mut draft = Draft::default();
        let members: Vec<u32> = (0..count)
            .map(|i| {
                let tyvar = draft.tyvar(5_000 + i);
                draft.list(tyvar)
            })
            .collect();
        let first = draft.var(&members[..64], &[]);
        let second = draft.var(&members[64..], &[]);
        let union = draft.union(first, second);
        draft.rooted(union)
    };
    // 1, twice 1 and 64 times 2; 128 variables and lists, and the union.
    let head = "root>258>+>1>259>0>0>257";
    edges.root("128 members flattened", table(128), head);
    edges.root("129 members flattened", table(129), "refused>260>+>7");
}

/// A union of equal members, all of them shared with another union, comes
/// back with one more.
fn stored_members(edges: &mut Edges) {
    let table = |count: u32| {
        let mut draft = Draft::default();
        let equal: Vec<u32> = (0..count).map(|_| draft.prim(0)).collect();
        let other = draft.prim(3);
        let first = draft.var(&equal, &[]);
        let second = draft.union(0, other);
        let inter = draft.inter(first, second);
        draft.rooted(inter)
    };
    // 1 for the inter, 1 and 127 for the variable, 3 for the union.
    let head = "root>130>+>1>132>1>0>3";
    edges.root("128 members stored", table(127), head);
    edges.root("129 members stored", table(128), "refused>131>+>7");
}

/// 7 comes once the whole list stands, so a 6 on the way wins.
fn keys_before_members(edges: &mut Edges) {
    let table = |lists: u32, first: bool| {
        let mut draft = Draft::default();
        let prim = draft.prim(0);
        let last = draft.lists(prim, lists)[lists as usize - 1];
        let mut bounds: Vec<u32> = (0..128).map(|_| draft.prim(3)).collect();
        let at = if first { 0 } else { 128 };
        bounds.insert(at, last);
        let var = draft.var(&bounds, &[]);
        draft.rooted(var)
    };
    // The variable is one key, the prim below the lists another.
    edges.root("6 last, before 7", table(95, false), "refused>224>+>6");
    edges.root("6 first, before 7", table(95, true), "refused>224>+>6");
    edges.root("7 where no 6 is", table(94, false), "refused>223>+>7");
}
