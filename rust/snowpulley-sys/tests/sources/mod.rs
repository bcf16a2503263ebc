//! Texts of the repository.

use std::path::{Path, PathBuf};

fn path(below_root: &str) -> PathBuf {
    let package = Path::new(env!("CARGO_MANIFEST_DIR"));
    package.join("../..").join(below_root)
}

pub fn text(below_root: &str) -> String {
    std::fs::read_to_string(path(below_root)).expect(below_root)
}

pub fn header() -> String {
    text("include/snowpulley.h")
}

/// All code of a crate of the proved library.
pub fn code(krate: &str) -> String {
    let folder = path("crates").join(krate).join("src");
    let mut files: Vec<PathBuf> = std::fs::read_dir(folder)
        .expect("the crate's code")
        .map(|file| file.expect("a file").path())
        .filter(|file| file.extension().is_some_and(|e| e == "rt"))
        .collect();
    files.sort();
    let read = |file: &PathBuf| std::fs::read_to_string(file).expect("a text");
    files.iter().map(read).collect::<Vec<_>>().join("\n")
}
