//! Tables whose nodes are all in one bucket of the store's index, and the same
//! tables with other numbers, so that the nodes are in all buckets.

use super::draft::Draft;

/// The kind of a variable's row, which has the variable's number besides.
const VARIABLE: u32 = 0;
/// The first number of a variable here. No table has an entry of that number,
/// and all numbers that are used here have as many digits.
const FIRST: u32 = 100_000;
/// The fields of a set, so that text and listing of 2,000 variables fit.
const FIELDS: usize = 500;

const FACTOR: u32 = 1_640_531_527;
/// FACTOR times this is 1, modulo 2 to the 32.
const INVERSE: u32 = 3_954_393_975;
const _: () = assert!(FACTOR.wrapping_mul(INVERSE) == 1);

/// The hash of a node's row, as the store makes it (crates/lang_ty/src/index.rt).
/// Should it be another there, what is made by this one is still right, but its
/// nodes are in any buckets.
pub fn hash(row: &[u32]) -> u32 {
    let words = row.iter();
    words.fold(0, |hash: u32, &word| {
        hash.wrapping_add(word).wrapping_mul(FACTOR)
    })
}

/// The number of the one variable whose row has this hash.
pub fn variable_of(hash: u32) -> u32 {
    // The row's first word is 0, and so is the hash before the number.
    hash.wrapping_mul(INVERSE)
}

/// The bucket of a row, one of 256.
pub fn bucket(row: &[u32]) -> u32 {
    hash(row) >> 24
}

/// The numbers of variables whose rows are in a bucket.
pub fn numbers(of: u32) -> impl Iterator<Item = u32> {
    consecutive().filter(move |&number| bucket(&[VARIABLE, number]) == of)
}

/// The numbers of variables whose rows are in all buckets in turn.
pub fn consecutive() -> impl Iterator<Item = u32> {
    FIRST..
}

/// A root over so many variables of one bucket.
pub fn one_bucket(count: usize) -> Vec<u8> {
    over(numbers(0).take(count))
}

/// The same root over variables of consecutive numbers.
pub fn spread(count: usize) -> Vec<u8> {
    over(consecutive().take(count))
}

/// A set of sets of variables with these numbers.
fn over(numbers: impl Iterator<Item = u32>) -> Vec<u8> {
    let mut draft = Draft::with_names(FIELDS as u32);
    let variables: Vec<u32> = numbers.map(|number| draft.tyvar(number)).collect();
    let parts = variables.chunks(FIELDS);
    let sets: Vec<u32> = parts.map(|part| draft.set(part, &[])).collect();
    let top = draft.set(&sets, &[]);
    draft.rooted(top)
}
