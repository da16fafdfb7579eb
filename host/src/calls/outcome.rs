//! What a call comes to.

use oracle::Refusal;
use pekonusit::raw;

/// A refused call: number and line.
#[derive(Clone, Copy, Debug, PartialEq, Eq, PartialOrd, Ord)]
pub struct Refused {
    pub number: u32,
    pub line: u32,
}

pub fn refused(number: u32, line: u32) -> Refused {
    Refused { number, line }
}

/// As the second reader of tables tells it.
impl From<Refusal> for Refused {
    fn from(refusal: Refusal) -> Self {
        refused(refusal.number, refusal.line as u32)
    }
}

/// So many bytes written, or a refusal.
pub type Outcome = Result<usize, Refused>;

pub fn outcome(raw: raw::Outcome) -> Outcome {
    match raw {
        raw::Outcome::Written(bytes) => Ok(bytes as usize),
        raw::Outcome::Refused { number, line } => Err(refused(number, line)),
    }
}

/// The numbers that all calls give; 12 and 20 have line 0.
pub fn of_any_call(refusal: Refused) -> bool {
    match (refusal.number, refusal.line) {
        (1 | 3 | 4 | 5, line) => line > 0,
        (2, _) => true,
        (12 | 20, line) => line == 0,
        _ => false,
    }
}
