//! docs/BENCHMARK.md: what stands between two marks is written anew, the rest is kept.

use std::path::Path;
use std::{fs, io};

/// Writes a part anew: what stands between `<!-- NAME -->` and `<!-- end NAME -->`.
pub fn replace(document: &Path, name: &str, part: &str) -> io::Result<()> {
    let text = fs::read_to_string(document)?;
    let replaced = with_part(&text, name, part)
        .ok_or_else(|| io::Error::other(format!("{}: no marks of {name}", document.display())))?;
    fs::write(document, replaced)
}

/// The text with the part put in; `None` where the marks are missing.
pub fn with_part(text: &str, name: &str, part: &str) -> Option<String> {
    let (start, end) = (format!("<!-- {name} -->\n"), format!("<!-- end {name} -->"));
    let from = text.find(&start)? + start.len();
    let to = from + text[from..].find(&end)?;
    Some(format!("{}\n{}\n\n{}", &text[..from], part.trim_end(), &text[to..]))
}
