//! What inputs came to: written, or refused with a number.

use std::collections::{BTreeMap, BTreeSet};

use super::rows::{print_heads, print_row};

/// 0 for written, or the number of the refusal, and words after it.
pub type Came = (u32, &'static str);
/// Of the inputs of one kind.
pub type Counts = BTreeMap<Came, u64>;

/// A row for each kind of input, with a column for all that one came to.
pub fn print<'a>(head: &str, kinds: impl Iterator<Item = (&'a str, &'a Counts)> + Clone) {
    let columns = kinds.clone().flat_map(|(_, counts)| counts.keys());
    let columns: BTreeSet<Came> = columns.copied().collect();
    let mut heads = vec![head.to_string()];
    heads.extend(columns.iter().map(|&(number, words)| match number {
        0 => "written".to_string(),
        _ => format!("{number}{words}"),
    }));
    print_heads(&heads);
    for (name, counts) in kinds {
        print_row(
            name,
            columns.iter().map(|came| counts.get(came).unwrap_or(&0)),
        );
    }
}
