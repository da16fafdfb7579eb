//! The lengths of the lent slices, as the proved crate `layout` states them: a
//! length that changes there has changed here.

const STATED: &[u8] = include_bytes!("../../../crates/layout/src/lib.rt");

/// The bytes that a call drafts its text in.
pub const DRAFT: usize = stated("impl DraftSlice {", "const LENGTH: usize = ");
/// A table that was read.
pub const TABLE: usize = stated("impl TableSlice {", "const LENGTH: usize = ");
/// The nodes of a pass.
pub const ARENA: usize = stated("impl ArenaSlice {", "const LENGTH: usize = ");
/// The same for recheck, which reads the lines of the old listing into it.
pub const RECHECK_ARENA: usize = stated("impl ArenaSlice {", "const LINE: usize = ");
/// What a pass works with.
pub const WORK: usize = stated("impl WorkSlice {", "const LENGTH: usize = ");

/// A constant of a slice. One that is not there breaks the build.
const fn stated(slice: &str, name: &str) -> usize {
    let from = behind(slice, 0);
    let at = behind(name, from);
    assert!(at < behind("\n}", from), "the slice states no such length");
    number(at)
}

/// The place after the first such words from a place on.
const fn behind(words: &str, from: usize) -> usize {
    let mut at = from;
    while !stand(words.as_bytes(), at) {
        at += 1;
    }
    at + words.len()
}

/// Whether the words stand at a place.
const fn stand(words: &[u8], at: usize) -> bool {
    assert!(
        at + words.len() <= STATED.len(),
        "layout states no such length"
    );
    let mut i = 0;
    while i < words.len() && STATED[at + i] == words[i] {
        i += 1;
    }
    i == words.len()
}

/// The decimal at a place, up to its semicolon.
const fn number(at: usize) -> usize {
    let (mut at, mut sum) = (at, 0);
    while STATED[at] != b';' {
        assert!(STATED[at].is_ascii_digit(), "a length is a decimal");
        sum = sum * 10 + (STATED[at] - b'0') as usize;
        at += 1;
    }
    sum
}
