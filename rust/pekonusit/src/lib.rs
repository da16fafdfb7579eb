//! Pekonusit's proved calls from Rust: `canon`, `canon_root` and `recheck` over
//! byte slices, with scratch of their own, `canon` and `recheck` in both forms of
//! a listing; a listing as typed values; and a root's type as a person reads it.
//!
//! ```no_run
//! use pekonusit::{Calls, Listing, Names, View};
//!
//! let table = std::fs::read("examples/talk-show.table").unwrap();
//! let text = Calls::new().canon(&table).unwrap();
//! let listing = Listing::read(text.as_bytes()).unwrap();
//! let names = Names::read(&table);
//! assert_eq!(
//!     listing.roots[0].signature(&names, View::default()),
//!     "{ actual : Int, planned : Int, .. } -> [Int]"
//! );
//! ```
//!
//! What the texts are is told in docs/FORMATS.md, what the calls promise in
//! docs/CALLS.md.

mod calls;
pub mod lengths;
mod listing;
pub mod raw;
mod refusal;
mod signature;

pub use calls::{Calls, Done, Rechecked};
pub use listing::{Answer, Form, Listing, Node, NotInForm, Root, Set, Shown, Sign};
pub use refusal::{limit_words, Part, Refusal};
pub use signature::{Names, View};
