//! Tables that nest deeply.

use crate::input::draft::Draft;
use crate::input::ladders::ladder;
use crate::input::large;

pub struct Deep {
    pub name: &'static str,
    pub text: Vec<u8>,
}

pub fn inputs() -> Vec<Deep> {
    vec![
        deep("a prim", one_prim()),
        deep("95 lists", nested(|draft, a| draft.list(a))),
        deep("95 lambdas", nested(|draft, a| draft.lambda(a, 0))),
        deep("95 sets", nested(|draft, a| draft.set(&[a], &[]))),
        deep("95 unions", nested(|draft, a| draft.union(0, a))),
        deep("95 intersections", nested(|draft, a| draft.inter(1, a))),
        deep("95 negations", nested(|draft, a| draft.neg(a))),
        deep("95 variables", nested(|draft, a| draft.var(&[a], &[a]))),
        deep("variables and lists", nested(bounds_of_lists)),
        deep("47 fallbacks", fallbacks()),
        deep("47 retries", retries()),
        deep("unions and intersections, 1,960 deep, negated", negated()),
        deep("a ladder of 46 levels, negated", ladder(46)),
        deep("2,000 lists, walked from the top", walked()),
        deep("two members of 950 lists, sorted", sorted()),
        deep("a preserved chain 1,920 deep, negated", preserved(640)),
        deep(
            "a chain of both polarities, 4,020 deep, negated",
            two_ways(670, None),
        ),
        deep(
            "one 3,840 deep below 90 intersections",
            two_ways(640, Some(within_inter)),
        ),
        deep(
            "one 3,840 deep below 90 variables",
            two_ways(640, Some(within_var)),
        ),
        deep("a field merged 4,000 deep", merged()),
        deep(
            "two members with one, sorted",
            merged_and_sorted(0, within_inter),
        ),
        deep(
            "sorted below 90 intersections",
            merged_and_sorted(90, within_inter),
        ),
        deep(
            "sorted below 90 variables",
            merged_and_sorted(90, within_var),
        ),
        deep("4,096 nodes", large::nodes(0)),
        deep("16,384 cells", large::cells(134)),
    ]
}

fn deep(name: &'static str, text: Vec<u8>) -> Deep {
    Deep { name, text }
}

fn one_prim() -> Vec<u8> {
    let mut draft = Draft::default();
    let prim = draft.prim(0);
    draft.rooted(prim)
}

/// As many keys in progress as there may be. Entries 0 and 1 are a prim and
/// a named type.
fn nested(around: Around) -> Vec<u8> {
    let mut draft = Draft::with_names(1);
    let prim = draft.prim(0);
    let mut last = draft.named(0, prim);
    for _ in 0..94 {
        last = around(&mut draft, last);
    }
    draft.rooted(last)
}

/// A list and a variable in turn.
fn bounds_of_lists(draft: &mut Draft, a: u32) -> u32 {
    match a % 2 {
        0 => draft.list(a),
        _ => draft.var(&[a, a], &[a, a]),
    }
}

/// In a negative place each variable falls back to its lower bound, a lambda
/// with the next one in a negative place.
fn fallbacks() -> Vec<u8> {
    let mut draft = Draft::default();
    let bare = draft.var(&[], &[]);
    let prim = draft.prim(0);
    let mut last = prim;
    for _ in 0..47 {
        let lambda = draft.lambda(last, prim);
        last = draft.var(&[lambda], &[bare]);
    }
    let top = draft.lambda(last, prim);
    draft.rooted(top)
}

/// Each intersection contradicts itself at first and finds the next one when
/// it tries its variable in the other polarity.
fn retries() -> Vec<u8> {
    let mut draft = Draft::default();
    let prim = draft.prim(0);
    let neg = draft.neg(prim);
    let mut last = draft.prim(3);
    for level in (0..47).rev() {
        // The first try of the topmost is positive, the next one's negative.
        let var = match level % 2 {
            0 => draft.var(&[prim], &[last]),
            _ => draft.var(&[last], &[prim]),
        };
        last = draft.inter(var, neg);
    }
    draft.rooted(last)
}

/// Every 40th of these entries, so that a set over them visits each of them
/// with few keys in progress.
fn steps(entries: &[u32]) -> Vec<u32> {
    entries.iter().copied().skip(39).step_by(40).collect()
}

fn negated() -> Vec<u8> {
    let mut draft = Draft::with_names(60);
    let prim = draft.prim(0);
    let (a, b) = (draft.named(0, prim), draft.named(1, prim));
    let mut last = a;
    let mut chain = Vec::new();
    for level in 0..1_960 {
        last = match level % 2 {
            0 => draft.union(last, b),
            _ => draft.inter(last, a),
        };
        chain.push(last);
    }
    let fields: Vec<u32> = steps(&chain).iter().map(|&a| draft.neg(a)).collect();
    let set = draft.set(&fields, &[]);
    draft.rooted(set)
}

/// Variables of one class, reached in both polarities: in the second pass
/// each gives an intersection of itself and the intersection of its two upper
/// bounds, one of which is a union with the next: three levels for two
/// entries. Negation goes all the way down before it stores a level.
fn preserved(count: u32) -> Vec<u8> {
    let mut draft = Draft::with_names(60);
    let prim = draft.prim(0);
    let (a, b) = (draft.named(0, prim), draft.list(prim));
    let mut last = a;
    let vars: Vec<u32> = (0..count)
        .map(|_| {
            let union = draft.union(last, a);
            last = draft.var(&[prim], &[union, b]);
            last
        })
        .collect();
    // Visits in a negative place, step by step; each variable is two keys.
    let mut fields: Vec<u32> = steps(&vars)
        .iter()
        .map(|&var| draft.lambda(var, prim))
        .collect();
    // And one in a positive place.
    fields.extend([draft.neg(last), last]);
    let set = draft.set(&fields, &[]);
    for &var in &vars[1..] {
        draft.pair(var, vars[0]);
    }
    draft.rooted(set)
}

/// An entry around another.
type Around = fn(&mut Draft, u32) -> u32;

/// With a named type, which stands at entry 1.
fn within_inter(draft: &mut Draft, a: u32) -> u32 {
    draft.inter(a, 1)
}

fn within_var(draft: &mut Draft, a: u32) -> u32 {
    draft.var(&[a], &[a])
}

fn around(draft: &mut Draft, a: u32, count: u32, around: Around) -> u32 {
    (0..count).fold(a, |a, _| around(draft, a))
}

/// The deepest that negation finds: the same variables are a chain of unions
/// and intersections by their lower bounds, and another by their upper bounds,
/// three levels for each variable in either. At the second chain's end a
/// variable without upper bounds falls back to the first chain. The first pass
/// has none of these levels, since there the class's variable is a filler.
fn two_ways(count: u32, within: Option<Around>) -> Vec<u8> {
    let mut draft = Draft::with_names(60);
    let prim = draft.prim(0);
    let named = draft.named(0, prim);
    let class = draft.var(&[], &[]);
    let itself = draft.tyvar(class);
    // Its lower bound is the entry after the chain.
    let turn = draft.var(&[5 + 3 * count], &[]);
    let (mut upper, mut lower) = (turn, named);
    let mut vars = Vec::new();
    for _ in 0..count {
        let union = draft.union(upper, itself);
        let inter = draft.inter(lower, itself);
        let var = draft.var(&[inter, itself], &[union, itself]);
        draft.pair(var, class);
        vars.push(var);
        (upper, lower) = (var, var);
    }
    draft.inter(lower, itself);
    // Step by step, so that all of it is cached when the negation is visited.
    let mut steps = steps(&vars);
    steps.push(upper);
    let negative = draft.set(&[&[turn], &steps[..]].concat(), &[]);
    let negative = draft.lambda(negative, prim);
    let neg = draft.neg(upper);
    let top = match within {
        Some(within) => around(&mut draft, neg, 90, within),
        None => neg,
    };
    steps.extend([negative, top]);
    let set = draft.set(&steps, &[]);
    draft.rooted(set)
}

/// Variables whose upper bounds are 125 sets of one field, which has two types
/// in turn, and the variable before. Merging them, each set puts an
/// intersection around the field's type: 4,000 of them with the last variable,
/// and one less with another beside it.
fn merged_fields(draft: &mut Draft) -> [u32; 2] {
    let prim = draft.prim(0);
    let types = [draft.named(0, prim), prim];
    let types = types.iter().cycle().take(125);
    let sets: Vec<u32> = types.map(|&a| draft.set(&[a], &[])).collect();
    // A union with it is a bound that is no variable, and of the same type.
    let filler = draft.tyvar(u32::MAX);
    let mut last = sets[1];
    for _ in 0..31 {
        let whole = draft.union(last, filler);
        last = draft.var(&[], &[&[whole], &sets[..]].concat());
    }
    let whole = draft.union(last, filler);
    [125, 124].map(|most| draft.var(&[], &[&[whole], &sets[..most]].concat()))
}

/// The walk goes down all the way.
fn merged() -> Vec<u8> {
    let mut draft = Draft::with_names(1);
    let [last, _] = merged_fields(&mut draft);
    draft.negative_root(last);
    draft.text()
}

/// Two unions share the two sets, and the order compares level by level. The
/// sets are cached by then.
fn merged_and_sorted(count: u32, within: Around) -> Vec<u8> {
    let mut draft = Draft::with_names(3);
    let [last, other] = merged_fields(&mut draft);
    let both = draft.union(last, other);
    let (a, b) = (draft.named(0, 0), draft.named(1, 0));
    let (first, second) = (draft.union(both, a), draft.union(both, b));
    let inter = draft.inter(first, second);
    let top = around(&mut draft, inter, count, within);
    let set = draft.set(&[last, other, top], &[]);
    draft.negative_root(set);
    draft.text()
}

/// A union is put last in an intersection, so the lists come first in the
/// walk, although a set in the union was first to visit them, step by step.
fn walked() -> Vec<u8> {
    let mut draft = Draft::with_names(60);
    let prim = draft.prim(0);
    let lists = draft.lists(prim, 2_000);
    let set = draft.set(&steps(&lists), &[]);
    let named = draft.named(0, prim);
    let union = draft.union(set, named);
    let inter = draft.inter(union, lists[1_999]);
    draft.rooted(inter)
}

fn sorted() -> Vec<u8> {
    let mut draft = Draft::with_names(60);
    let mut fields = Vec::new();
    let mut tops = Vec::new();
    for code in [1, 0] {
        let prim = draft.prim(code);
        let lists = draft.lists(prim, 950);
        fields.extend(steps(&lists));
        tops.push(lists[949]);
    }
    let both = draft.union(tops[0], tops[1]);
    let (a, b) = (draft.named(0, 0), draft.named(1, 0));
    let (first, second) = (draft.union(both, a), draft.union(both, b));
    fields.push(tops[0]);
    fields.push(tops[1]);
    fields.push(draft.inter(first, second));
    let set = draft.set(&fields, &[]);
    draft.rooted(set)
}
