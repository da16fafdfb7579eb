//! A C program over the header and the archive, compiled and run.

use std::path::{Path, PathBuf};
use std::process::{Command, Output};
use std::{env, fs};

use pekonusit::{Calls, Sign};

const ROOT: &str = concat!(env!("CARGO_MANIFEST_DIR"), "/../..");

/// Compiles examples/calls.c. A compiler for x86-64 may be named by
/// PEKONUSIT_CC.
fn compiled(folder: &Path) -> PathBuf {
    let program = folder.join("calls");
    let compiler = env::var("PEKONUSIT_CC").unwrap_or_else(|_| "cc".to_string());
    let status = Command::new(compiler)
        .args([
            "-std=c11",
            "-Wall",
            "-Wextra",
            "-Werror",
            "-pedantic",
            "-static",
        ])
        .args([
            "-I",
            &format!("{ROOT}/include"),
            &format!("{ROOT}/examples/calls.c"),
        ])
        .args(["-L", env!("SIGNATURES_FOLDER"), "-lsignatures", "-o"])
        .arg(&program)
        .status();
    assert!(status.expect("there is a C compiler").success());
    program
}

/// Runs it, by the emulator that PEKONUSIT_RUNNER names, if any.
fn run(program: &Path, words: &[&str]) -> Output {
    let mut command = match env::var_os("PEKONUSIT_RUNNER") {
        Some(runner) => {
            let mut command = Command::new(runner);
            command.arg(program);
            command
        }
        None => Command::new(program),
    };
    let output = command
        .current_dir(format!("{ROOT}/examples"))
        .args(words)
        .output();
    output.expect("the program runs")
}

/// A folder of one test.
fn folder(test: &str) -> PathBuf {
    let folder = PathBuf::from(env!("CARGO_TARGET_TMPDIR")).join(test);
    fs::create_dir_all(&folder).unwrap();
    folder
}

fn example(name: &str) -> Vec<u8> {
    fs::read(format!("{ROOT}/examples/{name}")).unwrap()
}

#[test]
fn c_gives_what_the_crate_gives() {
    let folder = PathBuf::from(env!("CARGO_TARGET_TMPDIR"));
    let program = compiled(&folder);
    let printed = |words: &[&str]| String::from_utf8(run(&program, words).stdout).unwrap();
    let mut calls = Calls::new();
    let (old, new) = (
        example("two-shows.table"),
        example("two-shows-edited.table"),
    );
    let listing = calls.canon(&old).unwrap();
    assert_eq!(printed(&["canon", "two-shows.table"]), listing);
    let root = calls.canon_root(&old, 5, Sign::Input).unwrap();
    assert_eq!(printed(&["root", "two-shows.table", "5", "-"]), root);
    let rechecked = calls.recheck(&old, &new, listing.as_bytes()).unwrap();
    let words = [
        "recheck",
        "two-shows.table",
        "two-shows-edited.table",
        "two-shows.listing",
    ];
    assert_eq!(
        printed(&words),
        format!("redone\tkept\n{}", rechecked.listing)
    );
}

#[test]
fn c_gives_numbered_listings() {
    let folder = folder("numbered");
    let program = compiled(&folder);
    let mut calls = Calls::new();
    let listing = calls.canon_numbered(&example("bailed.table")).unwrap();
    let output = run(&program, &["canon_numbered", "bailed.table"]);
    assert_eq!(output.stdout, listing.as_bytes());
    let file = folder.join("bailed.listing");
    fs::write(&file, &listing).unwrap();
    let mut words = [
        "recheck_numbered",
        "bailed.table",
        "bailed.table",
        file.to_str().unwrap(),
    ];
    let output = run(&program, &words);
    assert_eq!(output.stdout, format!("kept\tkept\n{listing}").as_bytes());
    words[0] = "recheck";
    let output = run(&program, &words);
    assert_eq!(output.stdout, b"refused\t11\t2\n");
}

#[test]
fn c_tells_a_refusal() {
    let program = compiled(&folder("refusal"));
    let output = run(&program, &["canon", "two-shows.listing"]);
    assert_eq!(
        (output.stdout.as_slice(), output.status.code()),
        (&b"refused\t1\t1\n"[..], Some(1))
    );
    let output = run(&program, &["root", "two-shows.table", "99", "+"]);
    assert_eq!(
        (output.stdout.as_slice(), output.status.code()),
        (&b"refused\t3\t0\n"[..], Some(1))
    );
}
