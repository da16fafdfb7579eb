//! Either call with a listing of the other form, which is 11 at line 2.

use oracle::Form;

use crate::calls::{refused, Input, Recheck, OUTPUT};
use crate::report::{watch, Faults};

pub struct Mixed {
    /// One of each form.
    calls: [Recheck; 2],
    /// How often each was refused so.
    pub refused: [u64; 2],
    pub faults: Faults,
}

impl Mixed {
    pub fn new() -> Self {
        Mixed {
            calls: Form::ALL.map(Recheck::new),
            refused: [0; 2],
            faults: Faults::default(),
        }
    }

    /// A pair of tables with a listing of each form.
    pub fn pair(&mut self, [plain, numbered]: [Input; 2]) {
        let calls = self.calls.iter_mut().zip([numbered, plain]);
        for ((recheck, input), count) in calls.zip(&mut self.refused) {
            // That would be 11 at line 0.
            if input.listing.len() > OUTPUT {
                continue;
            }
            watch::begin(&input.text());
            *count += 1;
            let outcome = recheck.recheck(&input, &mut [0x5a; 100]);
            if outcome != Ok(Err(refused(11, 2))) {
                recheck.scratch.wipe();
                let name = format!("mixed-{}", self.faults.count + 1);
                let fault = format!("a listing of another form than {:?}", recheck.form);
                let fault = format!("{fault}: {outcome:?}");
                self.faults.take(&name, &input.text(), &fault);
            }
        }
    }

    pub fn print(&self) {
        println!(
            "{} plain listings given to recheck_numbered and {} numbered ones to recheck, each refused with 11 at line 2",
            self.refused[1], self.refused[0]
        );
    }
}
