//! Finds the Rust text and writes it, cut and patched, into cargo's output
//! folder.

use std::path::{Path, PathBuf};
use std::{env, fs};

use crate::{cut, sources};

/// Names a checkout of JRMurr/tix.
const NAMED: &str = "TIX_SRC";
/// The file whose presence tells that the text is at hand.
const PROBE_FILE: &str = "crates/lang_check/src/collect.rs";

/// Makes the text of the checkout, or else of the folder beside the
/// repository, and sets `text_at_hand`; the names of the branch counters, none
/// where there is no text.
pub fn make(beside: &str) -> Result<Vec<String>, String> {
    println!("cargo:rustc-check-cfg=cfg(text_at_hand)");
    let Some(root) = root(beside)? else {
        return Ok(Vec::new());
    };
    println!("cargo:rustc-cfg=text_at_hand");
    let mut names = Vec::new();
    for source in sources::SOURCES {
        let path = root.join(source.path);
        let whole = fs::read_to_string(&path).map_err(|e| format!("{}: {e}", path.display()))?;
        let text = cut::make(source, &whole, &mut names)?;
        write(path.file_name().unwrap_or_default(), &text)?;
    }
    Ok(names)
}

fn root(beside: &str) -> Result<Option<PathBuf>, String> {
    println!("cargo:rerun-if-env-changed={NAMED}");
    let named = env::var_os(NAMED);
    let is_named = named.is_some();
    let root = named.map_or(beside.into(), PathBuf::from);
    println!("cargo:rerun-if-changed={}", root.display());
    match root.join(PROBE_FILE).is_file() {
        true => Ok(Some(root)),
        false if is_named => Err(format!("{NAMED} names no checkout with {PROBE_FILE}")),
        false => Ok(None),
    }
}

/// Writes a file of cargo's output folder.
pub fn write(name: impl AsRef<Path>, text: &str) -> Result<(), String> {
    let folder = env::var_os("OUT_DIR").expect("cargo sets OUT_DIR");
    let path = PathBuf::from(folder).join(name);
    fs::write(&path, text).map_err(|e| format!("{}: {e}", path.display()))
}
