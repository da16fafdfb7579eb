//! A hundred tables in a row, each by a process of the program recheck.

use std::env;
use std::io::{self, Write as _};
use std::path::{Path, PathBuf};
use std::process::{Command, Stdio};
use std::time::{Duration, Instant};

use oracle::rng::Rng;
use oracle::{gen, Form, Table};

use crate::calls::{Canon, Input, Recheck, OUTPUT};
use crate::input::edits;

const TABLES: usize = 100;
/// Names another program than crates/recheck/out/recheck.
const PROGRAM: &str = "RECHECK";

pub fn run() {
    let program = program();
    if !program.is_file() {
        println!(
            "bench: {} is missing, its processes are skipped",
            program.display()
        );
        return;
    }
    let inputs: Vec<(Vec<u8>, Vec<u8>)> = (0..).filter_map(made).take(TABLES).collect();
    let nothing = vec![(Vec::new(), b"refused\t1\t1\n".to_vec()); inputs.len()];
    match timed(&program, &inputs).and_then(|whole| Ok((whole, timed(&program, &nothing)?))) {
        Ok((whole, start)) => println!(
            "{TABLES} tables by a process each: {:.0} ms; {TABLES} processes with an empty input: {:.0} ms",
            whole.as_secs_f64() * 1e3,
            start.as_secs_f64() * 1e3
        ),
        Err(fault) => println!("bench: {}: {fault}", program.display()),
    }
}

fn program() -> PathBuf {
    let ours = Path::new(env!("CARGO_MANIFEST_DIR")).join("../crates/recheck/out/recheck");
    env::var_os(PROGRAM).map_or(ours, PathBuf::from)
}

/// The program's input for a table with some edits, and what it prints, where
/// that is a listing.
fn made(index: u64) -> Option<(Vec<u8>, Vec<u8>)> {
    let mut rng = Rng::new(index);
    let (_, old) = gen::mixed(0, index);
    let new = edits::of_table(&mut rng, &old);
    let [old, new] = [old, new].map(|table| Table::to_text(&table));
    let mut out = vec![0; OUTPUT];
    let length = Canon::new(Form::Plain).bare(&old, &mut out).ok()?;
    let listing = out[..length].to_vec();
    let input = Input { old, new, listing };
    let length = Recheck::new(Form::Plain).bare(&input, &mut out).ok()?;
    out.truncate(length);
    Some((input.text(), out))
}

/// The time that the processes take one after another, from start to end. Each
/// must print what is expected.
fn timed(program: &Path, inputs: &[(Vec<u8>, Vec<u8>)]) -> io::Result<Duration> {
    let start = Instant::now();
    for (input, expected) in inputs {
        if printed(program, input)? != *expected {
            return Err(io::Error::other(
                "it prints something else than the library writes",
            ));
        }
    }
    Ok(start.elapsed())
}

fn printed(program: &Path, input: &[u8]) -> io::Result<Vec<u8>> {
    let mut child = Command::new(program)
        .stdin(Stdio::piped())
        .stdout(Stdio::piped())
        .spawn()?;
    // It reads all of its input before it prints.
    let written = child.stdin.take().map(|mut stdin| stdin.write_all(input));
    written.transpose()?;
    Ok(child.wait_with_output()?.stdout)
}
