//! The proved static library and the Rust text in one process: compared,
//! fuzzed, taken to its edges, and timed.
//!
//! The modules lie in layers, and no module uses one that uses it:
//!
//! 1. `calls`, the library's calls and the scratch that is looked at after
//!    each; `input`, what is given to them; `report`, what is printed and kept;
//!    `limits` of a run and `lines` of a listing. None of them uses another.
//! 2. `compare`, `fuzz`, `recheck` and `stack`, a command each.
//! 3. `edges` and `bench`, a command each; they use recheck's model.

mod bench;
mod breed;
mod calls;
mod compare;
mod edges;
mod fuzz;
mod input;
mod limits;
mod lines;
mod recheck;
mod report;
mod stack;

use std::process::ExitCode;
use std::thread;

use report::Tally;

const HELP: &str = "\
host compare COUNT [SEED]   COUNT roots of random tables, ours beside the Rust's
host slow COUNT [SEED]      COUNT slow tables, ours beside the Rust's
host fuzz COUNT [SEED]      COUNT damaged and random inputs
host recheck COUNT [SEED]   COUNT pairs of tables, and more damaged inputs
host edges                  each refusal at its edge
host stack                  the stack that the calls take on deep inputs
host bench                  our time per root beside the Rust's, and recheck's
host bench ladders          our time for ladders beside the Rust's, alone
host bench buckets          our time for nodes of one bucket, alone
host bench slow             our time for slow tables beside the Rust's, alone
host bench numbered         canon_numbered's beside canon's, alone
host bench recheck          recheck's alone
host breed CALL ROUNDS [SEED]
                            slow tables, bred: CALL is canon, recheck, read or
                            read-two
host bred CALL              the tables that were bred, timed once more
";

/// A caller's thread may have no more.
const STACK: usize = 2 << 20;

fn main() -> ExitCode {
    let arguments: Vec<String> = std::env::args().skip(1).collect();
    let arguments: Vec<&str> = arguments.iter().map(String::as_str).collect();
    let Some(job) = job(&arguments) else {
        eprint!("{HELP}");
        return ExitCode::from(2);
    };
    let thread = thread::Builder::new().stack_size(STACK).spawn(job);
    let joined = thread.expect("a thread can be started").join();
    let Tally { passed, failed } = joined.unwrap_or(Tally::of(0, 1));
    if passed + failed > 0 {
        println!("{}: {passed} passed, {failed} failed", arguments[0]);
    }
    match failed {
        0 => ExitCode::SUCCESS,
        _ => ExitCode::FAILURE,
    }
}

type Job = Box<dyn FnOnce() -> Tally + Send>;

fn job(arguments: &[&str]) -> Option<Job> {
    match *arguments {
        ["edges"] => Some(Box::new(edges::run)),
        ["stack"] => Some(Box::new(stack::run)),
        ["bench"] => Some(Box::new(bench::run)),
        ["bench", "ladders"] => Some(Box::new(bench::laddered)),
        ["bench", "buckets"] => Some(Box::new(bench::bucketed)),
        ["bench", "slow"] => Some(Box::new(bench::slowed)),
        ["bench", "numbered"] => Some(Box::new(bench::numbered)),
        ["bench", "recheck"] => Some(Box::new(bench::rechecked)),
        ["bred", call] => bred_again(call),
        ["breed", call, rounds] => bred(call, rounds, "0"),
        ["breed", call, rounds, seed] => bred(call, rounds, seed),
        [name, count] => counted(name, count, "0"),
        [name, count, seed] => counted(name, count, seed),
        _ => None,
    }
}

fn bred(call: &str, rounds: &str, seed: &str) -> Option<Job> {
    let (rounds, seed) = (rounds.parse().ok()?, seed.parse().ok()?);
    let call = call.to_string();
    Some(Box::new(move || {
        breed::run(&call, rounds, seed).unwrap_or(Tally::of(0, 1))
    }))
}

fn bred_again(call: &str) -> Option<Job> {
    let call = call.to_string();
    Some(Box::new(move || {
        breed::again(&call).unwrap_or(Tally::of(0, 1))
    }))
}

fn counted(name: &str, count: &str, seed: &str) -> Option<Job> {
    let run = match name {
        "compare" => compare::run,
        "slow" => compare::slow,
        "fuzz" => fuzz::run,
        "recheck" => recheck::run,
        _ => return None,
    };
    let (count, seed) = (count.parse().ok()?, seed.parse().ok()?);
    Some(Box::new(move || run(count, seed)))
}
