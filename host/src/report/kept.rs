//! Tables that something is wrong with, or that are slow, are kept under
//! host/target, so that they can be looked at.

use std::fs;
use std::path::Path;

/// A table that was kept.
pub fn kept(folder: &str, name: &str) -> Option<Vec<u8>> {
    let here = Path::new(env!("CARGO_MANIFEST_DIR"));
    fs::read(here.join("target").join(folder).join(name)).ok()
}

/// Writes a table and tells its file, seen from the repository's root.
pub fn keep(folder: &str, name: &str, text: &[u8]) -> String {
    let here = Path::new(env!("CARGO_MANIFEST_DIR"));
    let folder = format!("target/{folder}");
    let name = name.replace(' ', "-");
    let written = fs::create_dir_all(here.join(&folder))
        .and_then(|()| fs::write(here.join(&folder).join(&name), text));
    match written {
        Ok(()) => format!("host/{folder}/{name}"),
        Err(fault) => format!("a file that could not be written ({fault})"),
    }
}
