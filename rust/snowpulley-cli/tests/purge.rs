//! `snowpulley purge`, on images that the reference makes.

mod common;

use common::{file, run, run_with, store_of, temporary, tool, Given, Link, Run};
use reference::store::purge;
use std::fs::{self, Permissions};
use std::os::unix::fs::{chown, MetadataExt, PermissionsExt};
use std::path::{Path, PathBuf};

/// 2025-01-14 06:40:00 UTC.
const MORNING: u64 = 1_736_836_800_000;

/// An active entry and two tombstones, of which one is an hour later.
fn image() -> Vec<u8> {
    let entries: [Given<'_>; 3] = [
        (b"comp/scale-3", b"", 0, MORNING),
        (b"gone", b"", 1, MORNING),
        (b"test-load", b"", 1, MORNING + 3_600_000),
    ];
    store_of(4, &entries)
}

fn purged(line: u64) -> Vec<u8> {
    let mut image = image();
    purge(&mut image, line).unwrap();
    image
}

/// Runs the command, with the file's name in the report replaced.
fn purge_file(path: &Path, line: u64) -> Run {
    let mut run = run(&["purge", path.to_str().unwrap(), &line.to_string()]);
    run.out = run.out.replace(path.to_str().unwrap(), "store");
    run
}

/// A folder of a test's own, so that what is left there is seen.
fn folder(name: &str) -> PathBuf {
    let folder = temporary(name);
    let _ = fs::remove_dir_all(&folder);
    fs::create_dir(&folder).unwrap();
    folder
}

fn names(folder: &Path) -> Vec<String> {
    let files = fs::read_dir(folder).unwrap();
    let mut names: Vec<String> = files
        .map(|file| file.unwrap().file_name().into_string().unwrap())
        .collect();
    names.sort();
    names
}

#[test]
fn a_store_is_replaced() {
    let folder = folder("purge-replaced");
    let path = folder.join("store");
    fs::write(&path, image()).unwrap();
    fs::set_permissions(&path, Permissions::from_mode(0o640)).unwrap();
    purge_file(&path, MORNING + 1).says(0, "purge.txt");
    assert_eq!(fs::read(&path).unwrap(), purged(MORNING + 1));
    let mode = fs::metadata(&path).unwrap().permissions().mode();
    assert_eq!(
        (mode & 0o777, names(&folder)),
        (0o640, vec!["store".into()])
    );
    purge_file(&path, MORNING + 1).says(0, "purge-again.txt");
    assert_eq!(fs::read(&path).unwrap(), purged(MORNING + 1));
}

#[test]
fn another_file_is_written() {
    let (path, output) = (file("purge-from", &image()), temporary("purge-to"));
    let output = output.to_str().unwrap();
    let words = ["purge", path.to_str().unwrap(), "0", "--output", output];
    let told = run(&words);
    assert!(told.out.starts_with(&format!("{output:?}: purged\n")));
    assert_eq!(fs::read(&path).unwrap(), image());
    assert_eq!(fs::read(output).unwrap(), purged(0));
    let piped = run_with(&["purge", "-", "0", "--output", output], &image());
    assert_eq!((piped.status, piped.out), (0, told.out));
}

/// A line may be given as a date, and one in the future only on purpose.
#[test]
fn lines_are_times() {
    let path = file("purge-dates", &image());
    let words = |line| ["purge", path.to_str().unwrap(), line, "--output"];
    let output = temporary("purge-dated");
    let purge_to =
        |line, more: &[&str]| run(&[&words(line)[..], &[output.to_str().unwrap()], more].concat());
    for (line, time) in [
        ("2025-01-14", MORNING - 24_000_000),
        ("2025-01-14T06:41", MORNING + 60_000),
        ("0x19463aee400", 0x19463aee400),
    ] {
        assert_eq!(purge_to(line, &[]).status, 0);
        assert_eq!(fs::read(&output).unwrap(), purged(time));
    }
    let far = "281474976710655";
    assert_eq!(purge_to(far, &[]).status, 2);
    assert_eq!(purge_to(far, &["--future"]).status, 0);
    assert_eq!(fs::read(&output).unwrap(), purged((1 << 48) - 1));
}

/// The report is lost, and the message does not say what became of the store:
/// the second purge is refused.
#[test]
fn a_report_that_cannot_be_printed() {
    let path = file("purge-unprinted", &image());
    for line in ["2", "1"] {
        let mut command = tool(&["purge", path.to_str().unwrap(), line]);
        let full = fs::File::options().write(true).open("/dev/full").unwrap();
        let ended = command.stdout(full).output().unwrap();
        let err = String::from_utf8(ended.stderr).unwrap();
        assert_eq!(ended.status.code(), Some(2));
        assert!(err.starts_with("snowpulley: the report cannot be printed: "));
        assert!(err.ends_with("; files may have been written\n"));
        assert_eq!(fs::read(&path).unwrap(), purged(2));
    }
}

/// Who may do anything, as root, can give a file away; the others are refused
/// what is not theirs anyway.
#[test]
fn the_owner_is_kept() {
    let path = file("purge-owned", &image());
    if chown(&path, Some(65_534), Some(65_534)).is_err() {
        return;
    }
    assert_eq!(purge_file(&path, 1).status, 0);
    let metadata = fs::metadata(&path).unwrap();
    assert_eq!((metadata.uid(), metadata.gid()), (65_534, 65_534));
    assert_eq!(fs::read(&path).unwrap(), purged(1));
}

/// The link stays, and leads to the purged store.
#[test]
fn a_link_leads_to_the_store() {
    let folder = folder("purge-link");
    let (path, link) = (folder.join("store"), folder.join("link"));
    fs::write(&path, image()).unwrap();
    let link = Link::new(Path::new("store"), link);
    assert_eq!(purge_file(&link.0, MORNING + 1).status, 0);
    assert!(fs::symlink_metadata(&link.0).unwrap().is_symlink());
    assert_eq!(fs::read(&path).unwrap(), purged(MORNING + 1));
    assert_eq!(names(&folder), ["link", "store"]);
}

#[test]
fn what_is_refused_is_left_as_it_is() {
    let folder = folder("purge-refused");
    let path = folder.join("store");
    fs::write(&path, purged(MORNING + 1)).unwrap();
    purge_file(&path, MORNING).says(1, "purge-lower.txt");
    assert_eq!(fs::read(&path).unwrap(), purged(MORNING + 1));
    let mut damaged = image();
    damaged[100] ^= 1;
    fs::write(&path, &damaged).unwrap();
    purge_file(&path, MORNING).says(1, "purge-damaged.txt");
    assert_eq!(fs::read(&path).unwrap(), damaged);
    assert_eq!(names(&folder), ["store"]);
    let output = folder.join("output");
    let words = [path.to_str().unwrap(), "1", "--output"];
    let words = [&["purge"][..], &words, &[output.to_str().unwrap()]].concat();
    assert_eq!(run(&words).status, 1);
    assert!(!output.exists());
}

/// Where no file can be written beside it, the store is as before.
#[test]
fn a_store_that_cannot_be_replaced() {
    let folder = folder("purge-long");
    let path = folder.join("s".repeat(255));
    fs::write(&path, image()).unwrap();
    let run = purge_file(&path, 1);
    assert_eq!((run.status, run.out.as_str()), (2, ""));
    let told = format!("snowpulley: purge: {path:?}: no file can be made beside it: File name too");
    assert!(run.err.starts_with(&told), "{run:?}");
    assert_eq!(fs::read(&path).unwrap(), image());
    assert_eq!(names(&folder).len(), 1);
    let piped = run_with(&["purge", "/dev/stdin", "1"], &image());
    piped.fails("purge: \"/dev/stdin\": no file that can be replaced");
}
