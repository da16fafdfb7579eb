//! recheck and recheck_numbered.

use oracle::Form;
use pekonusit::{lengths, raw};

#[cfg(before)]
use super::before;
use super::form::of_crate;
use super::library::Library;
use super::outcome::{of_any_call, outcome, Outcome, Refused};
use super::scratch::{Checked, Scratch, Slice};

/// What each is lent, in this order.
const SLICES: [Slice; 5] = [
    ("draft", lengths::DRAFT),
    ("old", lengths::TABLE),
    ("table", lengths::TABLE),
    ("arena", lengths::RECHECK_ARENA),
    ("work", lengths::WORK),
];

/// What they read.
#[derive(Clone, Default)]
pub struct Input {
    pub old: Vec<u8>,
    pub new: Vec<u8>,
    pub listing: Vec<u8>,
}

impl Input {
    /// As the programs read it.
    pub fn text(&self) -> Vec<u8> {
        let next = b"next\n";
        [&self.old[..], next, &self.new, next, &self.listing].concat()
    }
}

/// The call for listings in one form, with scratch of its own.
pub struct Recheck {
    pub form: Form,
    pub scratch: Scratch<5>,
}

impl Recheck {
    pub fn new(form: Form) -> Self {
        let scratch = Scratch::new(SLICES);
        Recheck { form, scratch }
    }

    /// The listing of the new table, with the roots that are kept or redone.
    pub fn recheck(&mut self, input: &Input, out: &mut [u8]) -> Checked {
        let form = self.form;
        let call = |scratch: &mut Scratch<5>, out: &mut [u8]| {
            recheck(Library::Ours, form, scratch, input, out)
        };
        let may = |refusal: Refused| match refusal.number {
            10 => refusal.line == 0,
            11 => true,
            _ => of_any_call(refusal),
        };
        self.scratch.checked(out, call, may)
    }

    /// The call alone, for timing and for the stack.
    pub fn bare(&mut self, input: &Input, out: &mut [u8]) -> Outcome {
        self.bare_of(Library::Ours, input, out)
    }

    pub fn bare_of(&mut self, library: Library, input: &Input, out: &mut [u8]) -> Outcome {
        recheck(library, self.form, &mut self.scratch, input, out)
    }
}

fn recheck(
    library: Library,
    form: Form,
    scratch: &mut Scratch<5>,
    input: &Input,
    out: &mut [u8],
) -> Outcome {
    let form = of_crate(form);
    let Input { old, new, listing } = input;
    outcome(match library {
        Library::Ours => {
            let (draft, [older, table, arena, work]) = scratch.slices();
            raw::recheck(
                form, old, new, listing, out, draft, older, table, arena, work,
            )
        }
        #[cfg(before)]
        Library::Before => {
            let (draft, [older, table, arena, work]) =
                scratch.slices_of(before::asked_by_recheck());
            let outcome = before::recheck(
                form, old, new, listing, out, draft, older, table, arena, work,
            );
            outcome.into()
        }
    })
}
