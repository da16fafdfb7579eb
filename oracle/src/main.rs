//! The oracle as a program; `oracle help` lists what it does.

use std::io::{self, BufWriter, Read, Write};
use std::process::ExitCode;

use oracle::{damage, frame, gen, Form};

const HELP: &str = "\
oracle < TABLE                    the listing of a table
oracle --numbered < TABLE         the same with variables numbered in each root
oracle --batch < FRAMES           the listings of many tables
oracle gen PROFILE SEED           a random accepted table
oracle gen PROFILE SEED COUNT     COUNT of them, framed; PROFILE `all` goes
                                  through all profiles
oracle damage SEED                a damaged table
oracle damage SEED COUNT          COUNT of them, framed
oracle profiles                   the profiles
oracle cover COUNT                counts over COUNT random tables
oracle vectors < EXAMPLES         the records of crates/examples/stdin, the
                                  Rust's answers among them made anew
oracle text                       whether this was built with the Rust text

A frame is a line `table`, name, byte length, parted by tabs, and then the
bytes; listings come back in frames that begin with `listing`.
";

fn main() -> ExitCode {
    let arguments: Vec<String> = std::env::args().skip(1).collect();
    let arguments: Vec<&str> = arguments.iter().map(String::as_str).collect();
    match run(&arguments) {
        Ok(true) => ExitCode::SUCCESS,
        Ok(false) => {
            eprint!("{HELP}");
            ExitCode::from(2)
        }
        Err(fault) => {
            eprintln!("oracle: {fault}");
            ExitCode::FAILURE
        }
    }
}

/// Does what the arguments ask; false if they ask for nothing known.
fn run(arguments: &[&str]) -> io::Result<bool> {
    let mut out = BufWriter::new(io::stdout().lock());
    match *arguments {
        [] => one(&mut out, Form::Plain)?,
        ["--numbered"] => one(&mut out, Form::Numbered)?,
        ["--batch"] => batch(&mut out)?,
        ["gen", profile, seed] => match (gen::profile(profile), seed.parse()) {
            (Some(profile), Ok(seed)) => out.write_all(&gen::table(profile, seed).to_text())?,
            _ => return Ok(false),
        },
        ["gen", profile, seed, count] => match (seed.parse(), count.parse()) {
            (Ok(seed), Ok(count)) if many(&mut out, profile, seed, count)? => {}
            _ => return Ok(false),
        },
        ["damage", seed] => match seed.parse() {
            Ok(seed) => out.write_all(&damage::table(seed).1)?,
            Err(_) => return Ok(false),
        },
        ["damage", seed, count] => match (seed.parse::<u64>(), count.parse::<u64>()) {
            (Ok(seed), Ok(count)) => {
                for seed in seed..seed + count {
                    let (told, text) = damage::table(seed);
                    frame::write(&mut out, "table", &format!("{seed} {told}"), &text)?;
                }
            }
            _ => return Ok(false),
        },
        ["profiles"] => {
            for profile in gen::profiles() {
                writeln!(out, "{:<10}{}", profile.name, profile.about)?;
            }
        }
        ["cover", count] => match count.parse() {
            Ok(count) => out.write_all(cover(count)?.as_bytes())?,
            Err(_) => return Ok(false),
        },
        ["text"] => match oracle::text_at_hand() {
            true => writeln!(out, "at hand")?,
            false => writeln!(out, "not at hand")?,
        },
        ["help"] => out.write_all(HELP.as_bytes())?,
        ["vectors"] => {
            let mut examples = Vec::new();
            io::stdin().read_to_end(&mut examples)?;
            out.write_all(&vectors(&examples)?)?;
        }
        _ => return Ok(false),
    }
    out.flush()?;
    Ok(true)
}

fn one(out: &mut impl Write, form: Form) -> io::Result<()> {
    let mut table = Vec::new();
    io::stdin().read_to_end(&mut table)?;
    out.write_all(&oracle::printed(form, &table))
}

fn batch(out: &mut impl Write) -> io::Result<()> {
    let mut input = io::stdin().lock();
    while let Some((name, table)) = frame::read(&mut input, "table")? {
        frame::write(out, "listing", &name, &oracle::printed(Form::Plain, &table))?;
    }
    Ok(())
}

fn many(out: &mut impl Write, profile: &str, seed: u64, count: u64) -> io::Result<bool> {
    for index in 0..count {
        let (profile, table) = match (profile, gen::profile(profile)) {
            ("all", _) => gen::mixed(seed, index),
            (_, Some(profile)) => (profile, gen::table(profile, seed + index)),
            _ => return Ok(false),
        };
        let kind = gen::profiles().nth(profile).map_or("", |kind| kind.name);
        let name = format!("{kind} {index}");
        frame::write(out, "table", &name, &table.to_text())?;
    }
    Ok(true)
}

#[cfg(text_at_hand)]
fn cover(count: u64) -> io::Result<String> {
    Ok(oracle::cover::report(count))
}

#[cfg(text_at_hand)]
fn vectors(examples: &[u8]) -> io::Result<Vec<u8>> {
    let renewed = oracle::vectors::renewed(examples);
    renewed.ok_or_else(|| io::Error::other("the records are not in form"))
}

#[cfg(not(text_at_hand))]
fn cover(_count: u64) -> io::Result<String> {
    Err(no_text())
}

#[cfg(not(text_at_hand))]
fn vectors(_examples: &[u8]) -> io::Result<Vec<u8>> {
    Err(no_text())
}

#[cfg(not(text_at_hand))]
fn no_text() -> io::Error {
    io::Error::other("the Rust text was not at hand when this was built")
}
