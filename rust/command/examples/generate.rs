//! `generate DIR COUNT` writes so many generated shows into DIR/old and
//! DIR/new, for ./measure.

#[path = "../tests/common/generated.rs"]
mod generated;

use std::path::Path;
use std::{env, fs, io};

fn main() -> io::Result<()> {
    let words: Vec<String> = env::args().skip(1).collect();
    let [folder, count] = &words[..] else {
        return Err(io::Error::other("usage: generate DIR COUNT"));
    };
    let count: usize = count.parse().map_err(io::Error::other)?;
    let (old, new) = (Path::new(folder).join("old"), Path::new(folder).join("new"));
    fs::create_dir_all(&old)?;
    fs::create_dir_all(&new)?;
    for number in 0..count {
        let show = generated::show(number);
        let name = format!("{}.table", show.name);
        fs::write(old.join(&name), show.old)?;
        fs::write(new.join(&name), show.new)?;
    }
    Ok(())
}
