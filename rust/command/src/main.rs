//! The command pekonusit: canon and recheck on files, and a hundred shows at
//! once.

mod arguments;
mod canon;
mod check;
mod files;
mod marked;
mod recheck;
mod report;
mod show;
mod shows;

use std::io;
use std::process::ExitCode;

use arguments::{Action, Arguments};
use clap::Parser;

/// What the exit status tells, the gravest last.
#[derive(Clone, Copy, Debug, PartialEq, Eq, PartialOrd, Ord)]
pub enum Verdict {
    Same,
    Changed,
    Refused,
}

fn main() -> ExitCode {
    let verdict = match Arguments::parse().action {
        Action::Canon(arguments) => canon::run(&arguments),
        Action::Recheck(arguments) => recheck::run(&arguments),
        Action::Shows(arguments) => shows::run(&arguments),
    };
    ExitCode::from(match verdict {
        Ok(Verdict::Same) => 0,
        Ok(Verdict::Changed) => 1,
        Ok(Verdict::Refused) => 2,
        Err(trouble) => {
            tell(&trouble);
            2
        }
    })
}

/// Tells a trouble that is not of one show.
fn tell(trouble: &io::Error) {
    eprintln!("pekonusit: {trouble}");
}
