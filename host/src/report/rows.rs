//! Tables in Markdown, as the documents show them.

/// The names of the columns.
pub fn print_heads(heads: &[impl AsRef<str>]) {
    let names: Vec<&str> = heads.iter().map(AsRef::as_ref).collect();
    println!("| {} |", names.join(" | "));
    println!("|{}", "---|".repeat(heads.len()));
}

pub fn print_row(name: &str, cells: impl IntoIterator<Item = impl ToString>) {
    let cells: Vec<String> = cells.into_iter().map(|cell| cell.to_string()).collect();
    println!("| {name} | {} |", cells.join(" | "));
}
