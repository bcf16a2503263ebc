//! A copy of the repository's crates in which changes are tried, each over what was proved before.

use crate::log::{Log, Verdict};
use std::collections::BTreeMap;
use std::fs;
use std::io;
use std::os::unix::fs::MetadataExt;
use std::os::unix::process::CommandExt;
use std::path::{Path, PathBuf};
use std::process::{Command, Stdio};
use std::time::{Duration, Instant};

/// A check that takes longer has no verdict.
const LONGEST: Duration = Duration::from_secs(600);

/// Where a check keeps its work, below its crate's folder.
pub const KEPT: &str = "out/incremental";

/// What a copy has of a crate beside its files: the library, for the crates above.
const LIBRARY: &str = "out/rlib";

/// What tells a file from another in its place: its number, its length and when it was written.
type Mark = (u64, u64, i64, i64);

#[derive(Debug)]
pub struct Workplace {
    root: PathBuf,
    /// What each crate's check left when nothing was changed.
    bases: PathBuf,
    /// For each crate whose base is here: what tells each file of its kept work.
    placed: BTreeMap<String, BTreeMap<PathBuf, Mark>>,
}

/// Keeps what a crate's check left in the repository at `from`, as the base of each of its workplaces.
pub fn keep_base(from: &Path, bases: &Path, name: &str) -> io::Result<()> {
    let kept = from.join("crates").join(name).join(KEPT);
    copy_folder(&kept, &bases.join(name), &|_| true)
}

impl Workplace {
    /// A fresh copy of the crates at `from`, with the libraries that were built there.
    pub fn new(from: &Path, root: PathBuf, bases: PathBuf) -> io::Result<Workplace> {
        copy_folder(&from.join("crates"), &root.join("crates"), &|path| {
            !["out", "must-fail", "wrong-answers"]
                .iter()
                .any(|part| path.ends_with(part))
        })?;
        for item in fs::read_dir(from.join("crates"))? {
            let folder = item?.path();
            let name = folder.file_name().expect("a name");
            if folder.join(LIBRARY).exists() {
                let to = root.join("crates").join(name).join(LIBRARY);
                copy_folder(&folder.join(LIBRARY), &to, &|_| true)?;
            }
        }
        for file in ["crates.txt", "HANDLES"] {
            if from.join(file).exists() {
                fs::copy(from.join(file), root.join(file))?;
            }
        }
        Ok(Workplace {
            root,
            bases,
            placed: BTreeMap::new(),
        })
    }

    fn folder(&self, name: &str) -> PathBuf {
        self.root.join("crates").join(name)
    }

    /// Checks a crate with some of its files changed, and puts everything back. A program that is
    /// proved is also run.
    pub fn check(&mut self, name: &str, changed: &[(String, String)]) -> io::Result<Log> {
        self.restore(name)?;
        let mut kept = Vec::new();
        for (file, text) in changed {
            let path = self.folder(name).join(file);
            kept.push((path.clone(), fs::read(&path)?));
            fs::write(&path, text)?;
        }
        let log = self.run(name).and_then(|log| self.ran(name, log));
        for (path, bytes) in kept.iter().rev() {
            fs::write(path, bytes)?;
        }
        log
    }

    /// What is said of a program's check once it has run: the rules of a program are held by what it
    /// writes.
    fn ran(&self, name: &str, mut log: Log) -> io::Result<Log> {
        let folder = self.folder(name);
        if log.verdict == Verdict::Proved && folder.join("stdout").exists() {
            let given = fs::File::open(folder.join("stdin")).map_or(Stdio::null(), Stdio::from);
            let mut command = Command::new("rt");
            command.arg("try").current_dir(&folder);
            let ran = command.stdin(given).output()?;
            if !ran.status.success() || ran.stdout != fs::read(folder.join("stdout"))? {
                log.verdict = Verdict::Output;
            }
        }
        Ok(log)
    }

    /// Makes what is kept of a crate that of the base.
    fn restore(&mut self, name: &str) -> io::Result<()> {
        let (folder, base) = (self.folder(name).join(KEPT), self.bases.join(name));
        let Some(placed) = self.placed.get_mut(name) else {
            if folder.exists() {
                fs::remove_dir_all(&folder)?;
            }
            copy_folder(&base, &folder, &|_| true)?;
            let marks = marks(&folder)?;
            self.placed.insert(name.to_string(), marks);
            return Ok(());
        };
        let mut found = marks(&folder)?;
        for (path, mark) in placed.iter_mut() {
            if found.remove(path) != Some(*mark) {
                let below = path.strip_prefix(&folder).expect("a file of the folder");
                fs::create_dir_all(path.parent().expect("a folder"))?;
                copy_file(&base.join(below), path)?;
                *mark = mark_of(path)?;
            }
        }
        found.keys().try_for_each(fs::remove_file)
    }

    fn run(&self, name: &str) -> io::Result<Log> {
        let path = self.root.join("check.log");
        let out = fs::File::create(&path)?;
        let mut child = Command::new("rt")
            .args(["check", "--jobs", "1"])
            .current_dir(self.folder(name))
            .stdin(Stdio::null())
            .stdout(out.try_clone()?)
            .stderr(out)
            .process_group(0)
            .spawn()?;
        let start = Instant::now();
        let mut in_time = true;
        while child.try_wait()?.is_none() {
            std::thread::sleep(Duration::from_millis(20));
            if in_time && LONGEST < start.elapsed() {
                in_time = false;
                Command::new("kill")
                    .args(["-9", "--", &format!("-{}", child.id())])
                    .status()?;
            }
        }
        let text = fs::read(&path)?;
        Ok(Log::read(&String::from_utf8_lossy(&text), in_time))
    }
}

/// Copies those files and folders below a folder that are wanted.
fn copy_folder(from: &Path, to: &Path, is_wanted: &dyn Fn(&Path) -> bool) -> io::Result<()> {
    fs::create_dir_all(to)?;
    for item in fs::read_dir(from)? {
        let path = item?.path();
        let target = to.join(path.file_name().expect("a name"));
        if !is_wanted(&path) {
            continue;
        }
        if path.is_dir() {
            copy_folder(&path, &target, is_wanted)?;
        } else {
            copy_file(&path, &target)?;
        }
    }
    Ok(())
}

/// Copies a file, one of a check's modules or of a library by a link where that can be made: rt replaces such a file, and
/// never writes into it.
fn copy_file(from: &Path, to: &Path) -> io::Result<()> {
    if to.exists() {
        fs::remove_file(to)?;
    }
    let is_module = from.extension().is_some_and(|e| e == "oantt");
    let is_of_library = from.iter().any(|part| part == "rlib");
    if (is_module || is_of_library) && fs::hard_link(from, to).is_ok() {
        return Ok(());
    }
    fs::copy(from, to).map(|_| ())
}

fn mark_of(path: &Path) -> io::Result<Mark> {
    let found = fs::metadata(path)?;
    Ok((found.ino(), found.size(), found.mtime(), found.mtime_nsec()))
}

/// What tells each file below a folder.
fn marks(folder: &Path) -> io::Result<BTreeMap<PathBuf, Mark>> {
    let mut found = BTreeMap::new();
    let mut open = vec![folder.to_path_buf()];
    while let Some(at) = open.pop().filter(|at| at.is_dir()) {
        for item in fs::read_dir(at)? {
            let path = item?.path();
            if path.is_dir() {
                open.push(path);
            } else {
                let mark = mark_of(&path)?;
                found.insert(path, mark);
            }
        }
    }
    Ok(found)
}
