//! A table of unions whose rows have one hash, all 32 bits of it, and the same
//! table with other unions.

use std::collections::HashMap;
use std::iter;

use oracle::rng::Rng;

use super::buckets::{consecutive, hash};
use super::draft::Draft;

/// The unions are of lists, list k of variable k: nodes 2 k and 2 k + 1.
const LISTS: usize = 400;
/// So many halves of one kind meet a thousand of the other, more or less.
const HALVES: usize = 2_000_000;
/// A union's row: its kind, the number of its members, and these.
const UNION: [u32; 2] = [5, 6];
/// An odd one: the kind, the members' nodes and the factor are.
const HASH: u32 = 1;

/// The members' lists, the first three among the first half of all.
type Members = [usize; 6];
type Half = [usize; 3];

/// A root over so many unions of one hash.
pub fn one_hash(count: usize) -> Vec<u8> {
    over(&of_one_hash(count))
}

/// The same root over any unions.
pub fn any_hash(count: usize) -> Vec<u8> {
    let mut rng = Rng::new(0);
    let drawn = iter::repeat_with(|| joined(half(&mut rng, 0), half(&mut rng, 1)));
    over(&drawn.take(count).collect::<Vec<_>>())
}

fn joined([a, b, c]: Half, [d, e, f]: Half) -> Members {
    [a, b, c, d, e, f]
}

/// Three lists of one half.
fn half(rng: &mut Rng, of: usize) -> Half {
    let mut list = || of * LISTS / 2 + rng.below(LISTS / 2);
    loop {
        let half @ [a, b, c] = [list(), list(), list()];
        if a != b && b != c && c != a {
            return half;
        }
    }
}

/// A row's hash is the sum of what its first words come to and of what its last
/// ones do by themselves, so halves are looked up that make up one sum.
fn of_one_hash(count: usize) -> Vec<Members> {
    let mut rng = Rng::new(0);
    let node = |list: usize| 2 * list as u32 + 1;
    let mut first = HashMap::new();
    for _ in 0..HALVES {
        let half = half(&mut rng, 0);
        let [a, b, c] = half.map(node);
        first.insert(hash(&[UNION[0], UNION[1], a, b, c, 0, 0, 0]), half);
    }
    let mut found = Vec::new();
    while found.len() < count {
        let second = half(&mut rng, 1);
        let rest = HASH.wrapping_sub(hash(&second.map(node)));
        // Each once, so that no union is met twice.
        found.extend(first.remove(&rest).map(|first| joined(first, second)));
    }
    found
}

/// A set of the lists, so that their nodes are the first, and of the unions.
fn over(unions: &[Members]) -> Vec<u8> {
    let mut draft = Draft::with_names((LISTS + unions.len()) as u32);
    let numbers = consecutive().take(LISTS);
    let variables: Vec<u32> = numbers.map(|number| draft.tyvar(number)).collect();
    let lists: Vec<u32> = variables.iter().map(|&id| draft.list(id)).collect();
    let unions = unions.iter();
    let unions = unions.map(|members| draft.var(&members.map(|list| lists[list]), &[]));
    let unions: Vec<u32> = unions.collect();
    let top = draft.set(&[lists, unions].concat(), &[]);
    draft.rooted(top)
}
