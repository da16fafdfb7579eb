//! Files: read with their name in the trouble, written beside and renamed.

use std::ffi::OsString;
use std::fs;
use std::io;
use std::path::{Path, PathBuf};

pub const TABLE: &str = "table";
pub const LISTING: &str = "listing";

pub fn read(path: &Path) -> io::Result<Vec<u8>> {
    fs::read(path).map_err(|trouble| named(path, &trouble))
}

/// A file's bytes, or nothing where there is no such file.
pub fn read_if_there(path: &Path) -> io::Result<Option<Vec<u8>>> {
    match fs::read(path) {
        Ok(bytes) => Ok(Some(bytes)),
        Err(trouble) if trouble.kind() == io::ErrorKind::NotFound => Ok(None),
        Err(trouble) => Err(named(path, &trouble)),
    }
}

/// The stems of the tables in a folder.
pub fn tables(folder: &Path) -> io::Result<Vec<OsString>> {
    let named = |trouble: io::Error| named(folder, &trouble);
    let mut stems = Vec::new();
    for entry in fs::read_dir(folder).map_err(named)? {
        let path = entry.map_err(named)?.path();
        if path.extension().is_some_and(|extension| extension == TABLE) {
            stems.extend(path.file_stem().map(OsString::from));
        }
    }
    Ok(stems)
}

/// The file of this stem and extension.
pub fn of(folder: &Path, stem: &OsString, extension: &str) -> PathBuf {
    let mut name = stem.clone();
    name.push(".");
    name.push(extension);
    folder.join(name)
}

/// A file that stands beside the one whose place it is to take.
pub struct Beside {
    path: PathBuf,
    place: PathBuf,
}

impl Beside {
    /// Where a new file would stand. One that a stopped run has left is gone.
    pub fn new(place: &Path) -> io::Result<Self> {
        let mut path = place.as_os_str().to_os_string();
        path.push(".new");
        let path = PathBuf::from(path);
        match fs::remove_file(&path) {
            Err(trouble) if trouble.kind() != io::ErrorKind::NotFound => {
                Err(named(&path, &trouble))
            }
            _ => Ok(Beside {
                path,
                place: place.to_path_buf(),
            }),
        }
    }

    pub fn write(&self, text: &str) -> io::Result<()> {
        fs::write(&self.path, text).map_err(|trouble| named(&self.path, &trouble))
    }

    /// Writes the file and takes the place.
    pub fn replace(&self, text: &str) -> io::Result<()> {
        self.write(text)?;
        self.rename()
    }

    /// Takes the place: whoever reads it finds the old file or the new one.
    pub fn rename(&self) -> io::Result<()> {
        fs::rename(&self.path, &self.place).map_err(|trouble| named(&self.place, &trouble))
    }
}

fn named(path: &Path, trouble: &io::Error) -> io::Error {
    io::Error::new(trouble.kind(), format!("{}: {trouble}", path.display()))
}
