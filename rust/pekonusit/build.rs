//! Links the proved static library, which `host/archive` makes.

use std::path::PathBuf;
use std::{env, process};

/// Names another folder than target/staticlib.
const FOLDER: &str = "SIGNATURES_DIR";
const ARCHIVE: &str = "libsignatures.a";

fn main() {
    println!("cargo:rerun-if-env-changed={FOLDER}");
    let folder = match env::var_os(FOLDER) {
        Some(folder) => PathBuf::from(folder),
        None => PathBuf::from("../../target/staticlib"),
    };
    let archive = folder.join(ARCHIVE);
    println!("cargo:rerun-if-changed={}", archive.display());
    let Ok(archive) = archive.canonicalize() else {
        eprintln!(
            "pekonusit: {} is missing; make it with `host/archive` in the repository's root",
            archive.display()
        );
        process::exit(1)
    };
    let folder = archive.parent().expect("an archive is in a folder");
    println!("cargo:rustc-link-search=native={}", folder.display());
    println!("cargo:rustc-link-lib=static=signatures");
    // For the test that links a C program with it.
    println!("cargo:rustc-env=SIGNATURES_FOLDER={}", folder.display());
}
