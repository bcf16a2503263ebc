//! Reading and writing whole files, with the file's name in an error.

use crate::cli::{failure, Failure};
use std::ffi::{OsStr, OsString};
use std::fs::{self, File, Metadata, OpenOptions};
use std::io::{self, Read, Write};
use std::os::fd::AsFd;
use std::os::unix::fs::{fchown, MetadataExt};
use std::path::{Path, PathBuf};

/// The bytes of a file, or of standard input for `-`.
pub fn read(path: &OsStr) -> Result<Vec<u8>, Failure> {
    let bytes = if path == "-" {
        let mut bytes = Vec::new();
        io::stdin().lock().read_to_end(&mut bytes).map(|_| bytes)
    } else {
        fs::read(path)
    };
    bytes.map_err(|error| named(path, &error))
}

/// What a report calls a file. The name is in quotes, so that it can be no
/// control code, and a file is not taken for standard input.
pub fn name(path: &OsStr) -> String {
    if path == "-" {
        "standard input".to_string()
    } else {
        format!("{path:?}")
    }
}

pub fn write(path: &OsStr, bytes: &[u8]) -> Result<(), Failure> {
    fs::write(path, bytes).map_err(|error| named(path, &error))
}

/// A store that is to be changed: its file is replaced, unless another one is
/// named for the changed store.
pub struct Changed {
    path: OsString,
    output: Option<OsString>,
}

impl Changed {
    pub fn new(path: OsString, output: Option<OsString>) -> Result<Changed, Failure> {
        if path == "-" && output.is_none() {
            return Err(failure("standard input needs --output FILE"));
        }
        Ok(Changed { path, output })
    }

    pub fn read(&self) -> Result<Vec<u8>, Failure> {
        let bytes = read(&self.path)?;
        self.keep_apart_from(&self.path)?;
        Ok(bytes)
    }

    pub fn keep_apart_from(&self, input: &OsStr) -> Result<(), Failure> {
        keep_apart(input, &[self.output.as_deref()])
    }

    pub fn write(&self, bytes: &[u8]) -> Result<(), Failure> {
        match &self.output {
            Some(output) => write(output, bytes),
            None => replace(&self.path, bytes),
        }
    }

    /// The name of what is read.
    pub fn name(&self) -> String {
        name(&self.path)
    }

    /// The name of what is written.
    pub fn output_name(&self) -> String {
        name(self.output.as_ref().unwrap_or(&self.path))
    }
}

/// Puts the bytes in the place of a file's: a new file beside it, with its
/// owner and permissions, takes its name when all of them are written. So the
/// old bytes or the new ones are there, whatever happens.
fn replace(path: &OsStr, bytes: &[u8]) -> Result<(), Failure> {
    replaced(Path::new(path), bytes).map_err(|error| named(path, &error))
}

fn replaced(path: &Path, bytes: &[u8]) -> io::Result<()> {
    let metadata = path.metadata()?;
    if !metadata.is_file() {
        return Err(io::Error::other("no file that can be replaced"));
    }
    // Whoever may not write to a file does not replace it either.
    OpenOptions::new().write(true).open(path)?;
    // By a link, the file that it leads to.
    let path = path.canonicalize()?;
    let mut name = path.file_name().unwrap_or_default().to_os_string();
    name.push(format!(".new-{}", std::process::id()));
    let beside = path.with_file_name(name);
    let made = File::create_new(&beside);
    let mut file = made.map_err(|error| because("no file can be made beside it", &error))?;
    let moved = fill(&mut file, bytes, &metadata).and_then(|()| fs::rename(&beside, &path));
    if moved.is_err() {
        // The first error is the one to tell.
        let _ = fs::remove_file(&beside);
    }
    moved
}

fn fill(file: &mut File, bytes: &[u8], like: &Metadata) -> io::Result<()> {
    give_owner(file, like).map_err(|error| because("its owner cannot be kept", &error))?;
    file.set_permissions(like.permissions())?;
    file.write_all(bytes)?;
    file.sync_all()
}

fn give_owner(file: &File, like: &Metadata) -> io::Result<()> {
    let made = file.metadata()?;
    match (made.uid(), made.gid()) == (like.uid(), like.gid()) {
        true => Ok(()),
        false => fchown(file, Some(like.uid()), Some(like.gid())),
    }
}

fn because(what: &str, error: &io::Error) -> io::Error {
    io::Error::new(error.kind(), format!("{what}: {error}"))
}

fn named(path: &OsStr, error: &io::Error) -> Failure {
    failure(format!("{}: {error}", name(path)))
}

/// An output may not be the file that was read, or the file of another output:
/// what is in it would be lost. To be asked before anything is written.
pub fn keep_apart(input: &OsStr, outputs: &[Option<&OsStr>]) -> Result<(), Failure> {
    let mut used = vec![(input, source(input))];
    for output in outputs.iter().copied().flatten() {
        let place = place(output);
        let same = used
            .iter()
            .find(|(_, other)| place.is_some() && *other == place);
        if let Some((other, _)) = same {
            let (output, other) = (name(output), name(other));
            return Err(failure(format!(
                "{output} is the same file as {other}, which would be overwritten"
            )));
        }
        used.push((output, place));
    }
    Ok(())
}

/// What a path leads to.
#[derive(PartialEq, Eq)]
enum Place {
    /// A file's device and number there, the same by whatever path.
    File(u64, u64),
    /// Where a file would be made.
    Free(PathBuf),
}

/// None where nothing can be overwritten, as at a device, or nothing written.
fn place(path: &OsStr) -> Option<Place> {
    if let Ok(metadata) = fs::metadata(path) {
        return file(&metadata);
    }
    let path = Path::new(path);
    let folder = match path.parent()? {
        here if here.as_os_str().is_empty() => Path::new("."),
        folder => folder,
    };
    let folder = folder.canonicalize().ok()?;
    Some(Place::Free(folder.join(path.file_name()?)))
}

/// The same of an input: standard input may be a file as well.
fn source(path: &OsStr) -> Option<Place> {
    if path != "-" {
        return place(path);
    }
    let stdin = io::stdin().as_fd().try_clone_to_owned().ok()?;
    file(&File::from(stdin).metadata().ok()?)
}

fn file(metadata: &Metadata) -> Option<Place> {
    let is_file = metadata.is_file();
    is_file.then(|| Place::File(metadata.dev(), metadata.ino()))
}
