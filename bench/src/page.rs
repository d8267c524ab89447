//! Puts the figures on the page, between two marker lines.

use std::path::Path;
use std::{fs, io};

const FROM: &str = "<!-- figures: written by bench/run --write -->\n";
const TO: &str = "<!-- end of figures -->\n";

/// `docs` is the folder with BENCH.md. The plot goes beside it.
pub fn write(docs: &Path, figures: &str, plot: &str) -> io::Result<()> {
    let page = docs.join("BENCH.md");
    let text = fs::read_to_string(&page)?;
    let between = text.split_once(FROM).and_then(|(head, rest)| Some((head, rest.split_once(TO)?.1)));
    let (head, tail) = between.ok_or_else(|| io::Error::other("BENCH.md has not the two marker lines"))?;
    fs::write(&page, format!("{head}{FROM}\n{figures}\n{TO}{tail}"))?;
    fs::write(docs.join("bench.svg"), plot)
}
