//! `docs/PERFORMANCE.md` and its chart.

use crate::{calls, chart, document, replay, stack};
use std::fs;
use std::path::{Path, PathBuf};

/// The files, seen from the repository.
const DOCUMENT: &str = "docs/PERFORMANCE.md";
const CHART: &str = "docs/performance.svg";

fn path(file: &str) -> PathBuf {
    Path::new(env!("CARGO_MANIFEST_DIR"))
        .join("../..")
        .join(file)
}

fn read(file: &str) -> Result<String, String> {
    fs::read_to_string(path(file)).map_err(|error| format!("{file}: {error}"))
}

fn save(file: &str, text: &str) -> Result<(), String> {
    fs::write(path(file), text).map_err(|error| format!("{file}: {error}"))
}

/// Measures everything; the tables of the document and the chart become those of
/// this run.
pub fn write(proved_replay: &Path) -> Result<String, String> {
    let parts = [
        ("replay", replay::table(proved_replay, replay::RECORDS)?),
        ("calls", calls::tables()),
        ("stack", stack::table()),
    ];
    let mut text = read(DOCUMENT)?;
    for (part, new) in parts {
        text = document::with(&text, part, &new)?;
    }
    save(DOCUMENT, &text)?;
    draw()
}

/// The document's three rows and the chart become those of its long table.
pub fn draw() -> Result<String, String> {
    let (text, chart) = drawn(&read(DOCUMENT)?)?;
    save(DOCUMENT, &text)?;
    save(CHART, &chart)?;
    Ok(format!("wrote {DOCUMENT} and {CHART}\n"))
}

/// A document with the three rows of its long table, and their chart.
fn drawn(text: &str) -> Result<(String, String), String> {
    let long = document::part(text, "calls")?;
    let new = document::with(text, "summary", &chart::summary(long)?)?;
    Ok((new, chart::chart(long)?))
}

#[cfg(test)]
mod tests {
    use super::*;

    /// The three rows and the chart are those of the long table.
    #[test]
    fn the_document_agrees_with_itself() {
        let text = read(DOCUMENT).unwrap();
        assert_eq!(drawn(&text), Ok((text, read(CHART).unwrap())));
    }
}
