//! Names of files, and outputs that would overwrite something.

mod common;

use common::{file, run, run_with, temporary, tool, Link};
use samples::script::{framed, record, repl_message, stamp};
use std::fs::{self, File};
use std::path::Path;

#[test]
fn files_that_cannot_be_used_are_named() {
    let missing = temporary("no-such-file");
    let name = missing.to_str().unwrap();
    for words in [
        &["show", name][..],
        &["replay", name],
        &["purge", name, "1"],
        &["offer", name, name],
    ] {
        let (run, command) = (run(words), words[0]);
        assert_eq!((run.status, run.out.as_str()), (2, ""));
        let told = format!("snowpulley: {command}: {name:?}: No such file");
        assert!(run.err.starts_with(&told), "{run:?}");
    }
    let unwritable = format!("{name}/below");
    let run = run(&["ring", "--ids", "1", "--svg", &unwritable]);
    assert_eq!(run.status, 2);
    assert!(run.err.contains(&unwritable), "{run:?}");
}

fn delivery() -> Vec<u8> {
    framed(&repl_message(b"k", stamp(9, 8, 7), None))
}

/// No control code of a name reaches a terminal, and no markup a page.
#[test]
fn names_are_shown_so_that_they_do_nothing() {
    let list = file("files-\u{1b}[31m<b>&\u{202e}\n", &delivery());
    let page = temporary("files-name.html");
    let words = ["audit".as_ref(), list.as_os_str(), "k".as_ref()];
    let options = ["--html".as_ref(), page.as_os_str()];
    let run = run(&[&words[..], &options].concat());
    let shown = r"files-\u{1b}[31m<b>&\u{202e}\n";
    assert!(run.status == 0 && run.out.contains(shown), "{run:?}");
    let html = fs::read_to_string(page).unwrap();
    assert!(html.contains(r"files-\u{1b}[31m&lt;b&gt;&amp;\u{202e}\n"));
    fs::remove_file(&list).unwrap();
    let gone = common::run(&words);
    assert!(gone.status == 2 && gone.err.contains(shown), "{gone:?}");
}

/// Other ways to a file: a folder more, a link to it, a link that is the file. They are there as long as the first link.
fn ways(path: &Path) -> (Vec<String>, Link) {
    let (link, hard) = (path.with_extension("link"), path.with_extension("hard"));
    let _ = fs::remove_file(&hard);
    let made = Link::new(path, link.clone());
    fs::hard_link(path, &hard).unwrap();
    let (folder, name) = (path.parent().unwrap(), path.file_name().unwrap());
    let around = folder.join("..").join(folder.file_name().unwrap());
    let paths = [path.to_path_buf(), around.join(name), link, hard];
    let paths = paths.map(|path| path.to_str().unwrap().to_string());
    (paths.into(), made)
}

#[test]
fn an_output_that_is_the_input_is_refused() {
    let bytes = [delivery(), record(1, &delivery())];
    let [list, journal] = &bytes;
    let [list, journal] = [("files-list", list), ("files-journal", journal)]
        .map(|(name, bytes)| file(name, bytes).to_str().unwrap().to_string());
    let commands: [(&str, &[&str]); 5] = [
        (&list, &["purge", &list, "1", "--output"]),
        (&list, &["audit", &list, "k", "--html"]),
        (&journal, &["replay", &journal, "--store"]),
        (&journal, &["replay", &journal, "--replies"]),
        (&journal, &["replay", &journal, "--deliveries"]),
    ];
    for (input, words) in commands {
        let (outputs, _link) = ways(Path::new(input));
        for output in outputs {
            let told =
                format!("{output:?} is the same file as {input:?}, which would be overwritten");
            run(&[words, &[&output]].concat()).fails(&format!("{}: {told}", words[0]));
        }
    }
    assert_eq!([list, journal].map(|path| fs::read(path).unwrap()), bytes);
}

/// Standard input may be a file, too.
#[test]
fn an_output_that_is_standard_input_is_refused() {
    let path = file("files-stdin", &delivery());
    let name = path.to_str().unwrap();
    let mut child = tool(&["audit", "-", "k", "--html", name]);
    let output = child.stdin(File::open(&path).unwrap()).output().unwrap();
    let told = format!("{name:?} is the same file as standard input, which would be overwritten");
    let err = String::from_utf8(output.stderr).unwrap();
    assert_eq!((output.status.code(), output.stdout.len()), (Some(2), 0));
    assert_eq!(err, format!("snowpulley: audit: {told}\n"));
    assert!(fs::read(path).unwrap() == delivery());
}

/// Two outputs may not be one file, which neither needs to be there before; a
/// device keeps nothing.
#[test]
fn outputs_are_kept_apart() {
    let path = temporary("files-both");
    let _ = fs::remove_file(&path);
    let name = path.to_str().unwrap();
    let words = ["replay", "-", "--store", name, "--replies", name];
    let told = format!("replay: {name:?} is the same file as {name:?}, which would be overwritten");
    run(&words).fails(&told);
    assert!(!path.exists());
    let null = [
        "replay",
        "-",
        "--store",
        "/dev/null",
        "--replies",
        "/dev/null",
    ];
    assert_eq!(run(&null).status, 0);
    let journal = record(1, &delivery());
    let words = ["replay", "-", "--store", name, "--deliveries"];
    let apart = temporary("files-apart");
    let run = run_with(&[&words[..], &[apart.to_str().unwrap()]].concat(), &journal);
    assert_eq!(run.status, 0);
    assert!(path.exists() && fs::read(apart).unwrap() == delivery());
}

#[test]
fn a_dash_is_no_output() {
    let told = "needs a file, not -; for a file of this name give ./-";
    for option in ["--store", "--replies", "--deliveries"] {
        run(&["replay", "-", option, "-"]).fails(&format!("replay: {option} {told}"));
    }
    run(&["ring", "--ids", "1", "--svg=-"]).fails(&format!("ring: --svg {told}"));
    run(&["purge", "-", "1", "--output=-"]).fails(&format!("purge: --output {told}"));
    run(&["offer", "-", "b", "--output=-"]).fails(&format!("offer: --output {told}"));
}
