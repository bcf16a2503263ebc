//! Running the tool and holding what it says to the files in `expected/`.

// Each test file uses its own part of this.
#![allow(dead_code)]

use reference::stamp::Stamp;
use reference::store::{create, image_length, offer};
use std::ffi::OsStr;
use std::io::Write;
use std::path::{Path, PathBuf};
use std::process::{Command, Output, Stdio};

/// What a run of the tool came to.
#[derive(Debug)]
pub struct Run {
    pub status: i32,
    pub out: String,
    pub err: String,
}

pub fn run<S: AsRef<OsStr>>(args: &[S]) -> Run {
    ended(tool(args).output().expect("the tool runs"))
}

/// The same with bytes on standard input.
pub fn run_with<S: AsRef<OsStr>>(args: &[S], input: &[u8]) -> Run {
    let mut child = tool(args)
        .stdin(Stdio::piped())
        .stdout(Stdio::piped())
        .stderr(Stdio::piped())
        .spawn()
        .expect("the tool runs");
    let mut stdin = child.stdin.take().expect("a pipe");
    // A tool that reads nothing may have ended.
    let _ = stdin.write_all(input);
    drop(stdin);
    ended(child.wait_with_output().expect("the tool ends"))
}

pub fn tool<S: AsRef<OsStr>>(args: &[S]) -> Command {
    let mut command = Command::new(env!("CARGO_BIN_EXE_snowpulley"));
    command.args(args).stdin(Stdio::null());
    command
}

fn ended(output: Output) -> Run {
    let text = |bytes| String::from_utf8(bytes).expect("the tool writes UTF-8");
    Run {
        status: output.status.code().expect("the tool is not killed"),
        out: text(output.stdout),
        err: text(output.stderr),
    }
}

impl Run {
    /// Nothing was amiss, and the output is the file's text. With the variable
    /// UPDATE_EXPECTED the file is written instead.
    pub fn says(&self, status: i32, file: &str) {
        assert_eq!((self.status, self.err.as_str()), (status, ""), "{self:?}");
        let path = here().join("tests/expected").join(file);
        if std::env::var_os("UPDATE_EXPECTED").is_some() {
            std::fs::write(&path, &self.out).expect("the file is written");
        }
        let expected = std::fs::read_to_string(&path).expect("the file is there");
        assert!(
            self.out == expected,
            "{file} has other text than\n{}",
            self.out
        );
    }

    /// The tool refused to work, with this message.
    pub fn fails(&self, message: &str) {
        let told = format!("snowpulley: {message}\n");
        let seen = (self.status, self.out.as_str(), self.err.as_str());
        assert_eq!(seen, (2, "", told.as_str()));
    }

    pub fn lines(&self) -> Vec<&str> {
        self.out.lines().collect()
    }
}

pub fn here() -> &'static Path {
    Path::new(env!("CARGO_MANIFEST_DIR"))
}

/// A path for a test's own file; each name is used by one test.
pub fn temporary(name: &str) -> PathBuf {
    Path::new(env!("CARGO_TARGET_TMPDIR")).join(name)
}

/// A link to a file, gone when the test ends, however it ends: rt takes no checkout with a link in it.
#[derive(Debug)]
pub struct Link(pub PathBuf);

impl Link {
    pub fn new(target: &Path, at: PathBuf) -> Link {
        let _ = std::fs::remove_file(&at);
        std::os::unix::fs::symlink(target, &at).expect("the link is made");
        Link(at)
    }
}

impl Drop for Link {
    fn drop(&mut self) {
        let _ = std::fs::remove_file(&self.0);
    }
}

/// A file with some bytes.
pub fn file(name: &str, bytes: &[u8]) -> PathBuf {
    let path = temporary(name);
    std::fs::write(&path, bytes).expect("the file is written");
    path
}

/// Key, value, flag and phys of an entry of module 1.
pub type Given<'a> = (&'a [u8], &'a [u8], u8, u64);

/// Whether the reference takes the entry.
pub fn offered(image: &mut [u8], (key, value, flag, phys): Given<'_>) -> bool {
    let (logical, node) = (0, 1);
    let stamp = Stamp {
        phys,
        logical,
        node,
    };
    offer(image, key, value, flag, stamp).is_ok()
}

/// The reference's store of some entries.
pub fn store_of(slots: usize, entries: &[Given<'_>]) -> Vec<u8> {
    let mut image = vec![0; image_length(slots)];
    create(&mut image, slots).expect("a number of slots");
    assert!(entries.iter().all(|&entry| offered(&mut image, entry)));
    image
}
