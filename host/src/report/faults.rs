//! The faults of a run.

use super::kept;

/// How many are told one by one.
const TOLD: u64 = 10;

#[derive(Default)]
pub struct Faults {
    pub count: u64,
}

impl Faults {
    /// Counts a fault, keeps the text that it was found with, and tells it.
    pub fn take(&mut self, name: &str, text: &[u8], fault: &str) {
        self.count += 1;
        let file = kept::keep("differ", name, text);
        if self.count <= TOLD {
            println!("{file}: {fault}");
        }
    }
}
