//! Ours, and the earlier library where one is linked, in the same scratch and in
//! turn. Where none is, there are no columns of it.

use std::time::Duration;

use super::clock::{ratio, told};
use crate::calls::{Canon, Library, Outcome, OUTPUT};

/// Something of each library, ours first.
pub type Each<T> = [T; Library::ALL.len()];

/// The names of the columns that the earlier library adds.
pub fn heads(names: [&str; 2]) -> Vec<&str> {
    names.repeat(Library::ALL.len() - 1)
}

/// What stands in them: its time, and ours beside it.
pub fn cells([ours, before @ ..]: Each<Duration>) -> Vec<String> {
    let before = before.iter();
    before
        .flat_map(|&before| [told(before), ratio(ours, before)])
        .collect()
}

/// The listing of a table, the same by each library; none if it is refused.
pub fn listing(canon: &mut Canon, text: &[u8]) -> Option<Vec<u8>> {
    written(|library, out| canon.bare_of(library, text, out))
}

/// What a call writes, the same by each library; none if it is refused.
pub fn written(mut call: impl FnMut(Library, &mut [u8]) -> Outcome) -> Option<Vec<u8>> {
    let mut out = vec![0; OUTPUT];
    let [ours, before @ ..] =
        Library::ALL.map(|library| call(library, &mut out).map(|length| out[..length].to_vec()));
    let same = before.iter().all(|before| *before == ours);
    assert!(same, "the earlier library gives the same");
    ours.ok()
}
