//! The oracle: the Rust text itself, run over tables.
//!
//! `listing` answers a table with the bytes that canon must print, and
//! `answers` gives the same as values. Where the text was not at hand when
//! this was built (`text_at_hand`), both say so.

#[cfg(text_at_hand)]
pub mod cover;
pub mod damage;
pub mod examples;
pub mod frame;
pub mod gen;
pub mod listing;
#[cfg(text_at_hand)]
mod probe;
pub mod reader;
pub mod records;
pub mod rng;
#[cfg(text_at_hand)]
mod run;
#[cfg(text_at_hand)]
mod shims;
pub mod table;
#[cfg(text_at_hand)]
#[allow(unused, clippy::all)]
mod text;
#[cfg(text_at_hand)]
pub mod vectors;

pub use reader::Refusal;
pub use table::{Root, Set, Table};

/// How the variables of an answer are numbered.
#[derive(Clone, Copy, Debug, PartialEq, Eq)]
pub enum Form {
    /// As the canonicalization leaves them.
    Plain,
    /// By the text's normalize_vars: 0, 1, 2 and so on in each root.
    Numbered,
}

impl Form {
    pub const ALL: [Form; 2] = [Form::Plain, Form::Numbered];
}

/// Why there is no listing.
#[derive(Clone, Copy, Debug, PartialEq, Eq)]
pub enum Fault {
    /// Refusals 1 to 5, by this package's own reader.
    Refused(Refusal),
    /// An accepted table that the text has no counterpart for: a primitive
    /// code of 8 or more, or a name that is not UTF-8.
    Outside,
    /// This was built without the text.
    NoText,
}

/// A node of an answer; children are node numbers.
#[derive(Clone, Debug, PartialEq, Eq)]
pub enum Node {
    TyVar(u32),
    Prim(u32),
    List(u32),
    Fn(u32, u32),
    Set(Set),
    Union(Vec<u32>),
    Inter(Vec<u32>),
    Named(u32, u32),
    Neg(u32),
    Bottom,
    Top,
}

/// What the text answered to a root.
#[derive(Clone, Debug, PartialEq, Eq)]
pub struct Shown {
    pub passes: u32,
    /// Of both passes.
    pub operations: u64,
    pub sorted: bool,
    /// Of either pass.
    pub bailed: bool,
    /// Of the first pass alone, which the listing does not tell.
    pub first_alone: bool,
    pub nodes: Vec<Node>,
}

#[derive(Clone, Debug, PartialEq, Eq)]
pub enum Answer {
    Shown(Shown),
    /// The text would not return: a fallback chain after the bail.
    Endless,
    /// The text would return, but negates more often than anyone waits for.
    TooLong,
}

/// Sizes of a root's run, by which a caller can tell whether one of the
/// limits 6 to 9 may matter. The text has none of them.
#[derive(Clone, Copy, Debug, Default, PartialEq, Eq)]
pub struct Measures {
    /// Most keys in progress at once; beyond 96 is refusal 6.
    pub keys: usize,
    /// Longest member list into or out of flattening, or stored; beyond 128
    /// is refusal 7.
    pub list: usize,
    /// Most nodes that the text stored in a pass; the port may store more.
    /// Beyond 4,096 is refusal 8.
    pub nodes: usize,
    /// Their cells; the port may use more. Beyond 16,384 is refusal 9.
    pub cells: usize,
}

#[derive(Clone, Debug, PartialEq, Eq)]
pub struct RootAnswer {
    pub root: Root,
    pub answer: Answer,
    pub measures: Measures,
}

/// Whether this was built with the text.
pub const fn text_at_hand() -> bool {
    cfg!(text_at_hand)
}

/// The answers to a table's roots, in order.
pub fn answers(form: Form, table: &[u8]) -> Result<Vec<RootAnswer>, Fault> {
    let table = reader::read(table).map_err(Fault::Refused)?;
    answers_of(form, &table)
}

/// The listing of a table, as bytes.
pub fn listing(form: Form, table: &[u8]) -> Result<Vec<u8>, Fault> {
    Ok(listing::write(form, &answers(form, table)?))
}

/// What the program prints for a table: the listing, or a line that tells
/// why there is none.
pub fn printed(form: Form, table: &[u8]) -> Vec<u8> {
    match listing(form, table) {
        Ok(listing) => listing,
        Err(Fault::Refused(refusal)) => refusal.to_text(),
        Err(Fault::Outside) => b"outside\n".to_vec(),
        Err(Fault::NoText) => b"notext\n".to_vec(),
    }
}

/// The answers to the roots of a table already read.
#[cfg(text_at_hand)]
pub fn answers_of(form: Form, table: &Table) -> Result<Vec<RootAnswer>, Fault> {
    run::on_large_stack(|| run::run(form, table)).ok_or(Fault::Outside)
}

/// The answers to the roots of a table already read.
#[cfg(not(text_at_hand))]
pub fn answers_of(_form: Form, _table: &Table) -> Result<Vec<RootAnswer>, Fault> {
    Err(Fault::NoText)
}
