//! The repository: its crates and their sources.

use crate::edit::Files;
use crate::items::Source;
use std::fs;
use std::io;
use std::path::{Path, PathBuf};

#[derive(Debug)]
pub struct Repository {
    pub root: PathBuf,
    /// In the order of crates.txt.
    pub crates: Vec<String>,
}

impl Repository {
    pub fn open(root: &Path) -> io::Result<Repository> {
        let root = root.canonicalize()?;
        let list = fs::read_to_string(root.join("crates.txt"))?;
        let lines = list
            .lines()
            .map(|line| line.split('#').next().unwrap_or(""));
        // behind a name its kind can stand, as in `capi staticlib: wire`
        let names = lines.filter_map(|line| line.split_once(':')?.0.split_whitespace().next());
        let crates = names.map(str::to_string).collect();
        Ok(Repository { root, crates })
    }

    pub fn folder(&self, name: &str) -> PathBuf {
        self.root.join("crates").join(name)
    }

    /// The files of a part of a crate with an extension: paths below the crate's folder, and texts.
    pub fn files(
        &self,
        name: &str,
        part: &str,
        extension: &str,
    ) -> io::Result<Vec<(String, String)>> {
        let folder = self.folder(name);
        let mut found = Vec::new();
        let mut open = vec![folder.join(part)];
        while let Some(at) = open.pop().filter(|at| at.is_dir()) {
            for item in fs::read_dir(at)? {
                let path = item?.path();
                if path.is_dir() {
                    open.push(path);
                } else if path.extension().is_some_and(|e| e == extension) {
                    let below = path.strip_prefix(&folder).expect("a file of the crate");
                    found.push((below.display().to_string(), fs::read_to_string(&path)?));
                }
            }
        }
        found.sort();
        Ok(found)
    }

    pub fn sources(&self, name: &str) -> io::Result<Vec<(String, Source)>> {
        let files = self.files(name, "src", "rt")?;
        Ok(files
            .into_iter()
            .map(|(file, text)| (file, Source::new(text)))
            .collect())
    }

    pub fn definitions(&self, name: &str) -> io::Result<Vec<(String, String)>> {
        self.files(name, "specs", "antt")
    }

    /// The files of a crate that an edit or a mutant may change.
    pub fn sources_and_definitions(&self, name: &str) -> io::Result<Files> {
        let mut files = self.files(name, "src", "rt")?;
        files.extend(self.definitions(name)?);
        Ok(files.into_iter().collect())
    }
}
