//! Checks passed and failed.

#[derive(Clone, Copy, Default)]
pub struct Tally {
    pub passed: u64,
    pub failed: u64,
}

impl Tally {
    /// Of so many checks; some have more than one fault.
    pub fn of(checks: u64, faults: u64) -> Self {
        Tally {
            passed: checks - faults.min(checks),
            failed: faults,
        }
    }

    pub fn count(&mut self, well: bool) {
        match well {
            true => self.passed += 1,
            false => self.failed += 1,
        }
    }

    /// Counts a check and tells its fault.
    pub fn take(&mut self, name: &str, result: Result<(), String>) {
        self.count(result.is_ok());
        if let Err(fault) = result {
            println!("{name}: {fault}");
        }
    }
}
