//! canon, canon_numbered and canon_root.

use oracle::Form;
use pekonusit::{lengths, raw};

#[cfg(before)]
use super::before;
use super::form::of_crate;
use super::library::Library;
use super::outcome::{of_any_call, outcome, refused, Outcome};
use super::scratch::{Checked, Scratch, Slice};

/// What each is lent, in this order.
const SLICES: [Slice; 4] = [
    ("draft", lengths::DRAFT),
    ("table", lengths::TABLE),
    ("arena", lengths::ARENA),
    ("work", lengths::WORK),
];

/// The call for listings in one form, and canon_root, with scratch of their own.
pub struct Canon {
    pub form: Form,
    pub scratch: Scratch<4>,
}

impl Canon {
    pub fn new(form: Form) -> Self {
        let scratch = Scratch::new(SLICES);
        Canon { form, scratch }
    }

    /// The listing of a table.
    pub fn canon(&mut self, text: &[u8], out: &mut [u8]) -> Checked {
        let form = self.form;
        let call = |scratch: &mut Scratch<4>, out: &mut [u8]| {
            canon(Library::Ours, form, scratch, text, out)
        };
        self.scratch.checked(out, call, of_any_call)
    }

    /// The lines of one root, which have a plain form only; the sign is 0 for `+`.
    pub fn canon_root(&mut self, text: &[u8], id: u32, sign: u32, out: &mut [u8]) -> Checked {
        let call = |scratch: &mut Scratch<4>, out: &mut [u8]| {
            let (draft, [table, arena, work]) = scratch.slices();
            outcome(raw::canon_root(
                text, id, sign, out, draft, table, arena, work,
            ))
        };
        let may = |refusal| refusal == refused(3, 0) || of_any_call(refusal);
        self.scratch.checked(out, call, may)
    }

    /// The call alone, for timing and for the stack.
    pub fn bare(&mut self, text: &[u8], out: &mut [u8]) -> Outcome {
        self.bare_of(Library::Ours, text, out)
    }

    pub fn bare_of(&mut self, library: Library, text: &[u8], out: &mut [u8]) -> Outcome {
        canon(library, self.form, &mut self.scratch, text, out)
    }
}

fn canon(
    library: Library,
    form: Form,
    scratch: &mut Scratch<4>,
    text: &[u8],
    out: &mut [u8],
) -> Outcome {
    let form = of_crate(form);
    outcome(match library {
        Library::Ours => {
            let (draft, [table, arena, work]) = scratch.slices();
            raw::canon(form, text, out, draft, table, arena, work)
        }
        #[cfg(before)]
        Library::Before => {
            let (draft, [table, arena, work]) = scratch.slices_of(before::asked_by_canon());
            before::canon(form, text, out, draft, table, arena, work).into()
        }
    })
}
