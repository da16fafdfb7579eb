//! Random tables in which unions, intersections and negations share their
//! parts, beside the Rust: what is expected is its listing.

use oracle::rng::Rng;
use oracle::{listing, Answer, Form};

use super::edge::{Edges, Expect, ROOM};
use crate::input::draft::Draft;

const TABLES: usize = 200;

/// None where the Rust text is not at hand.
pub fn drawn(edges: &mut Edges) {
    if !oracle::text_at_hand() {
        return;
    }
    let tables = (0..).filter_map(|seed| Some((seed, answered(table(seed))?)));
    for (seed, (text, listing)) in tables.take(TABLES) {
        let name = format!("drawn table {seed}");
        edges.add(&name, text, ROOM, Expect::Unasked(listing));
    }
}

/// A table with the Rust's listing, if it returns and has sorted no members,
/// whose order is none of the text's.
pub fn answered(text: Vec<u8>) -> Option<(Vec<u8>, Vec<u8>)> {
    let answers = oracle::answers(Form::Plain, &text).ok()?;
    let told = |answer: &Answer| matches!(answer, Answer::Shown(shown) if !shown.sorted);
    let all = answers.iter().all(|root| told(&root.answer));
    all.then(|| (text, listing::write(Form::Plain, &answers)))
}

/// Rows of unions and rows of intersections in turn, with some other entries
/// among them. The roots are negations of entries of the last two rows, one by
/// itself and some together.
fn table(seed: u64) -> Vec<u8> {
    let mut rng = Rng::new(seed);
    let mut draft = Draft::with_names(6);
    let leaves = leaves(&mut draft);
    let (mut before, mut row) = (leaves.clone(), leaves.clone());
    for number in 0..rng.range(4, 12) {
        let next: Vec<u32> = (0..3)
            .map(|_| {
                let a = rng.pick(&row);
                let b = match rng.chance(60, 100) {
                    true => rng.pick(&leaves),
                    false => rng.pick(&row),
                };
                match rng.below(16) {
                    0 => draft.neg(a),
                    1 => draft.lambda(a, b),
                    _ if number % 2 == 0 => draft.union(a, b),
                    _ => draft.inter(a, b),
                }
            })
            .collect();
        before = std::mem::replace(&mut row, next);
    }
    let negs = [row[0], row[1], before[0]].map(|a| draft.neg(a));
    let set = draft.set(&negs, &[]);
    for root in [negs[0], set] {
        draft.root(root);
        draft.negative_root(root);
    }
    draft.text()
}

/// Named types, a list, and variables with bounds on either side.
fn leaves(draft: &mut Draft) -> Vec<u32> {
    let prim = draft.prim(0);
    let mut leaves: Vec<u32> = (0..5).map(|name| draft.named(name, prim)).collect();
    let list = draft.list(prim);
    leaves.extend([list, draft.var(&[list], &[]), draft.var(&[], &[list])]);
    leaves
}
