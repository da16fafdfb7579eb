//! With BEFORE_DIR set, links the static library of an earlier commit too, its
//! exports under other names, so that `host bench` times both in one process.

use std::ffi::OsString;
use std::path::{Path, PathBuf};
use std::process::{self, Command};
use std::{env, fs};

/// Names the folder of the earlier library.
const FOLDER: &str = "BEFORE_DIR";
const ARCHIVE: &str = "libsignatures.a";
/// Names another program than objcopy.
const PROGRAM: &str = "OBJCOPY";
/// The crate's wrapper of the exports.
const WRAPPER: &str = "../rust/pekonusit/src/raw.rs";
const EXPORTS: [&str; 5] = [
    "pekonusit_canon",
    "pekonusit_canon_numbered",
    "pekonusit_canon_root",
    "pekonusit_recheck",
    "pekonusit_recheck_numbered",
];
/// What an earlier library may lack, and what stands for it then: nobody asks it
/// for that, but the wrapper names it.
const PLAIN: [(&str, &str); 2] = [
    ("pekonusit_canon_numbered", "pekonusit_canon"),
    ("pekonusit_recheck_numbered", "pekonusit_recheck"),
];

fn main() {
    println!("cargo:rustc-check-cfg=cfg(before)");
    println!("cargo:rerun-if-changed=build.rs");
    println!("cargo:rerun-if-env-changed={FOLDER}");
    let Some(folder) = env::var_os(FOLDER) else {
        return;
    };
    if let Err(fault) = link(&PathBuf::from(folder).join(ARCHIVE)) {
        eprintln!("host: {fault}");
        process::exit(1)
    }
}

fn link(archive: &Path) -> Result<(), String> {
    println!("cargo:rerun-if-env-changed={PROGRAM}");
    for file in [archive, Path::new(WRAPPER)] {
        println!("cargo:rerun-if-changed={}", file.display());
    }
    let out = PathBuf::from(env::var_os("OUT_DIR").expect("cargo sets OUT_DIR"));
    rename(archive, &out.join("libbefore.a"))?;
    complete(archive)?;
    wrap(&out.join("before.rs"))?;
    println!("cargo:rustc-link-search=native={}", out.display());
    println!("cargo:rustc-link-lib=static=before");
    println!("cargo:rustc-cfg=before");
    Ok(())
}

fn renamed(text: &str) -> String {
    text.replace("pekonusit_", "before_")
}

/// The archive with other names for its exports, which shows nothing else.
fn rename(archive: &Path, to: &Path) -> Result<(), String> {
    let program = env::var_os(PROGRAM).unwrap_or(OsString::from("objcopy"));
    let names = EXPORTS.map(|name| format!("--redefine-sym={name}={}", renamed(name)));
    let mut command = Command::new(&program);
    match command.args(names).arg(archive).arg(to).status() {
        Ok(status) if status.success() => Ok(()),
        Ok(status) => Err(format!("{}: {program:?}: {status}", archive.display())),
        Err(fault) => Err(format!("{program:?}: {fault}")),
    }
}

/// Tells the linker what stands for the exports that the archive lacks.
fn complete(archive: &Path) -> Result<(), String> {
    let bytes = fs::read(archive).map_err(|fault| format!("{}: {fault}", archive.display()))?;
    for (name, plain) in PLAIN {
        let mut parts = bytes.windows(name.len());
        if !parts.any(|part| part == name.as_bytes()) {
            let [name, plain] = [name, plain].map(renamed);
            println!("cargo:rustc-link-arg=-Wl,--defsym={name}={plain}");
        }
    }
    Ok(())
}

/// The wrapper over those names. What is said of its file as a whole cannot
/// stand in a text that is included, and its form is the crate's.
fn wrap(to: &Path) -> Result<(), String> {
    let whole = fs::read_to_string(WRAPPER).map_err(|fault| format!("{WRAPPER}: {fault}"))?;
    let lines = whole.lines().filter(|line| !line.starts_with("//!"));
    let text: String = lines.map(|line| renamed(line) + "\n").collect();
    let text = text.replace("crate::listing::Form", "pekonusit::Form");
    fs::write(to, text).map_err(|fault| format!("{}: {fault}", to.display()))
}
