//! The exports of the archive, over slices of any length. This is the only place
//! with pointers.

use crate::listing::Form;

/// Declares exports that take the same.
macro_rules! exports {
    ($($name:ident),+: $arguments:tt) => {
        extern "C" { $(fn $name $arguments -> u64;)+ }
    };
}

exports!(
    pekonusit_canon, pekonusit_canon_numbered: (
        text: *const u8,
        text_len: usize,
        out: *mut u8,
        out_len: usize,
        draft: *mut u8,
        draft_len: usize,
        table: *mut u32,
        table_len: usize,
        arena: *mut u32,
        arena_len: usize,
        work: *mut u32,
        work_len: usize,
    )
);

exports!(
    pekonusit_canon_root: (
        text: *const u8,
        text_len: usize,
        id: u32,
        sign: u32,
        out: *mut u8,
        out_len: usize,
        draft: *mut u8,
        draft_len: usize,
        table: *mut u32,
        table_len: usize,
        arena: *mut u32,
        arena_len: usize,
        work: *mut u32,
        work_len: usize,
    )
);

exports!(
    pekonusit_recheck, pekonusit_recheck_numbered: (
        old_text: *const u8,
        old_text_len: usize,
        new_text: *const u8,
        new_text_len: usize,
        listing: *const u8,
        listing_len: usize,
        out: *mut u8,
        out_len: usize,
        draft: *mut u8,
        draft_len: usize,
        old: *mut u32,
        old_len: usize,
        table: *mut u32,
        table_len: usize,
        arena: *mut u32,
        arena_len: usize,
        work: *mut u32,
        work_len: usize,
    )
);

/// What a call answers: so many bytes written, or a refusal.
#[derive(Clone, Copy, Debug, PartialEq, Eq)]
pub enum Outcome {
    Written(u32),
    Refused { number: u32, line: u32 },
}

impl Outcome {
    /// A refusal's number stands in the high half of the answer.
    fn new(answer: u64) -> Self {
        let (number, low) = ((answer >> 32) as u32, answer as u32);
        match number {
            0 => Outcome::Written(low),
            _ => Outcome::Refused { number, line: low },
        }
    }
}

/// The listing of a table in this form. A slice that is shorter than
/// [`crate::lengths`] states is refused with 20.
pub fn canon(
    form: Form,
    text: &[u8],
    out: &mut [u8],
    draft: &mut [u8],
    table: &mut [u32],
    arena: &mut [u32],
    work: &mut [u32],
) -> Outcome {
    let export = match form {
        Form::Plain => pekonusit_canon,
        Form::Numbered => pekonusit_canon_numbered,
    };
    // SAFETY: each pointer goes with the length of the slice that it was made
    // of, no two of them share a cell, and the call is proved to stay in bounds.
    Outcome::new(unsafe {
        export(
            text.as_ptr(),
            text.len(),
            out.as_mut_ptr(),
            out.len(),
            draft.as_mut_ptr(),
            draft.len(),
            table.as_mut_ptr(),
            table.len(),
            arena.as_mut_ptr(),
            arena.len(),
            work.as_mut_ptr(),
            work.len(),
        )
    })
}

/// The lines of one root; the sign is 0 for `+` and any other number for `-`.
#[allow(clippy::too_many_arguments)] // as the export has them
pub fn canon_root(
    text: &[u8],
    id: u32,
    sign: u32,
    out: &mut [u8],
    draft: &mut [u8],
    table: &mut [u32],
    arena: &mut [u32],
    work: &mut [u32],
) -> Outcome {
    // SAFETY: as above.
    Outcome::new(unsafe {
        pekonusit_canon_root(
            text.as_ptr(),
            text.len(),
            id,
            sign,
            out.as_mut_ptr(),
            out.len(),
            draft.as_mut_ptr(),
            draft.len(),
            table.as_mut_ptr(),
            table.len(),
            arena.as_mut_ptr(),
            arena.len(),
            work.as_mut_ptr(),
            work.len(),
        )
    })
}

/// The listing of the new table, in the form of the old one, after a line of
/// `kept` or `redone` for each root. Its arena is the longer one.
#[allow(clippy::too_many_arguments)] // as the export has them
pub fn recheck(
    form: Form,
    old_text: &[u8],
    new_text: &[u8],
    listing: &[u8],
    out: &mut [u8],
    draft: &mut [u8],
    old: &mut [u32],
    table: &mut [u32],
    arena: &mut [u32],
    work: &mut [u32],
) -> Outcome {
    let export = match form {
        Form::Plain => pekonusit_recheck,
        Form::Numbered => pekonusit_recheck_numbered,
    };
    // SAFETY: as above.
    Outcome::new(unsafe {
        export(
            old_text.as_ptr(),
            old_text.len(),
            new_text.as_ptr(),
            new_text.len(),
            listing.as_ptr(),
            listing.len(),
            out.as_mut_ptr(),
            out.len(),
            draft.as_mut_ptr(),
            draft.len(),
            old.as_mut_ptr(),
            old.len(),
            table.as_mut_ptr(),
            table.len(),
            arena.as_mut_ptr(),
            arena.len(),
            work.as_mut_ptr(),
            work.len(),
        )
    })
}
