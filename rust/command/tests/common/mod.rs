//! What the tests of the command share.

#![allow(dead_code)] // each test uses some of it

pub mod generated;

use std::path::{Path, PathBuf};
use std::process::{Command, Output};
use std::{env, fs};

use pekonusit::{Calls, Form};

/// The repository's root.
pub const ROOT: &str = concat!(env!("CARGO_MANIFEST_DIR"), "/../..");

/// The words that start the command: an emulator, where PEKONUSIT_RUNNER names
/// one, and the program.
pub fn words() -> Vec<String> {
    let runner = env::var("PEKONUSIT_RUNNER").ok();
    let program = env!("CARGO_BIN_EXE_pekonusit").to_string();
    runner.into_iter().chain([program]).collect()
}

pub fn pekonusit() -> Command {
    let words = words();
    let mut command = Command::new(&words[0]);
    command.args(&words[1..]);
    command
}

/// What a run has printed, and its exit status.
pub struct Ran {
    pub out: String,
    pub err: String,
    pub status: Option<i32>,
}

impl From<Output> for Ran {
    fn from(output: Output) -> Self {
        Ran {
            out: String::from_utf8(output.stdout).unwrap(),
            err: String::from_utf8(output.stderr).unwrap(),
            status: output.status.code(),
        }
    }
}

pub fn run(words: &[&str]) -> Ran {
    let output = pekonusit().current_dir(ROOT).args(words).output();
    output.expect("the command runs").into()
}

/// A folder of a test with generated shows, which is gone behind the test.
pub struct Shows {
    folder: PathBuf,
    form: Form,
    pub all: Vec<generated::Show>,
}

impl Shows {
    pub fn new(test: &str, count: usize) -> Self {
        Shows::in_form(Form::Plain, test, count)
    }

    /// So many shows with their old tables, new tables and old listings, which
    /// are in this form.
    pub fn in_form(form: Form, test: &str, count: usize) -> Self {
        let folder = Path::new(env!("CARGO_TARGET_TMPDIR")).join(test);
        let _ = fs::remove_dir_all(&folder);
        let all = (0..count).map(generated::show).collect();
        let shows = Shows { folder, form, all };
        for part in ["old", "new", "listings"] {
            fs::create_dir_all(shows.folder(part)).unwrap();
        }
        let mut calls = Calls::new();
        for (i, show) in shows.all.iter().enumerate() {
            fs::write(shows.old(i), &show.old).unwrap();
            fs::write(shows.new_table(i), &show.new).unwrap();
            let listing = calls.canon_in(form, show.old.as_bytes()).unwrap();
            fs::write(shows.listing(i), listing).unwrap();
        }
        shows
    }

    pub fn folder(&self, part: &str) -> PathBuf {
        self.folder.join(part)
    }

    fn file(&self, part: &str, i: usize, extension: &str) -> PathBuf {
        let name = format!("{}.{extension}", self.all[i].name);
        self.folder(part).join(name)
    }

    pub fn old(&self, i: usize) -> PathBuf {
        self.file("old", i, "table")
    }

    pub fn new_table(&self, i: usize) -> PathBuf {
        self.file("new", i, "table")
    }

    pub fn listing(&self, i: usize) -> PathBuf {
        self.file("listings", i, "listing")
    }

    /// The words of the command for these shows.
    pub fn arguments(&self) -> Vec<String> {
        let mut words = vec!["shows".to_string()];
        for (option, part) in [
            ("--old", "old"),
            ("--new", "new"),
            ("--listings", "listings"),
        ] {
            words.push(option.to_string());
            words.push(self.folder(part).to_str().unwrap().to_string());
        }
        words
    }

    pub fn command(&self) -> Command {
        let mut command = pekonusit();
        command.args(self.arguments());
        command
    }

    pub fn run(&self, options: &[&str]) -> Ran {
        let output = self.command().args(options).output();
        output.expect("the command runs").into()
    }

    /// All listings as they stand.
    pub fn listings(&self) -> Vec<String> {
        let read = |i| fs::read_to_string(self.listing(i)).unwrap();
        (0..self.all.len()).map(read).collect()
    }

    /// What canon gives, in the form of the listings, for the old tables, or for the new ones.
    pub fn afresh(&self, of: fn(&generated::Show) -> &str) -> Vec<String> {
        let mut calls = Calls::new();
        let canon = |show| calls.canon_in(self.form, of(show).as_bytes()).unwrap();
        self.all.iter().map(canon).collect()
    }

    /// The files in the folder of listings that are none.
    pub fn left_over(&self) -> usize {
        let files = fs::read_dir(self.folder("listings")).unwrap();
        let names = files.map(|file| file.unwrap().file_name());
        names
            .filter(|name| !name.to_str().unwrap().ends_with(".listing"))
            .count()
    }
}

impl Drop for Shows {
    fn drop(&mut self) {
        let _ = fs::remove_dir_all(&self.folder);
    }
}
