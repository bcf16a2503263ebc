//! `snowpulley replay`, beside the reference's replies.

mod common;

use common::{file, run, run_with, temporary, Run};
use reference::frame::Message;
use reference::replay::replay;
use samples::script::{framed, put_message, record, repl_message, stamp};
use samples::{sample, tail};
use std::process::Stdio;
use support::Rng;

fn answered(journal: &[u8]) -> Run {
    run_with(&["replay", "-"], journal)
}

/// Every request, and bytes that are text, no text, long, or quotes.
fn journal() -> Vec<u8> {
    let key = b"lamp".to_vec();
    let stamp = stamp(9, 8, 7);
    let records = [
        record(10, &framed(&put_message(b"lamp", b"on"))),
        record(11, &framed(&put_message(b"raw", &[27, 0]))),
        record(12, &framed(&put_message(b"long", &[b'x'; 30]))),
        record(13, &framed(&repl_message(b"lamp", stamp, Some(b"off")))),
        record(14, &framed(&Message::Get { key: key.clone() })),
        record(15, &framed(&Message::Del { key: key.clone() })),
        record(16, &framed(&Message::Get { key })),
        record(17, &framed(&repl_message(b"lamp", stamp, None))),
        record(18, &framed(&put_message(b"a\" = \"b", b"\\"))),
        record(19, &framed(&Message::Ok)),
        record(20, &[0, 6, 99, 0, 1, 2, 3, 4]),
    ];
    records.concat()
}

#[test]
fn requests_and_replies_are_readable() {
    answered(&journal()).says(0, "replay.txt");
    let full = run_with(&["replay", "--full", "-"], &journal());
    assert!(full.lines()[2].contains(&"x".repeat(30)));
}

#[test]
fn every_tail_is_told() {
    let mut text = String::new();
    for (kind, meaning) in tail::KINDS {
        let run = answered(&tail::journal(kind).unwrap());
        let whole = kind == "empty" || kind == "clean";
        assert_eq!(run.status, i32::from(!whole), "{kind}");
        let records = run.lines().into_iter().take_while(|line| !line.is_empty());
        let records: Vec<&str> = records.collect();
        text += &format!("{kind}: {meaning}\n{}\n", records.join("\n"));
    }
    let all = Run {
        status: 0,
        out: text,
        err: String::new(),
    };
    all.says(0, "replay-tails.txt");
}

/// The replies are the reference's, byte for byte, and the store is sound.
fn same_replies(name: &str, journal: &[u8], status: i32) {
    let path = file(&format!("replay-{name}"), journal);
    let replies = temporary(&format!("replay-{name}.replies"));
    let store = temporary(&format!("replay-{name}.store"));
    let words = ["replay", "--replies", "", "--store", "", ""];
    let mut args = words.map(std::ffi::OsString::from);
    args[2] = replies.clone().into();
    args[4] = store.clone().into();
    args[5] = path.into();
    assert_eq!(run(&args).status, status, "{name}");
    assert!(
        std::fs::read(&replies).unwrap() == replay(journal),
        "{name}"
    );
    let image = std::fs::read(&store).unwrap();
    assert!(reference::store::is_sound(&image), "{name}");
}

#[test]
fn the_replies_are_the_references() {
    same_replies("sample", &sample::script().journal(), 0);
    for (kind, _) in tail::KINDS {
        let whole = kind == "empty" || kind == "clean";
        let journal = tail::journal(kind).unwrap();
        same_replies(kind, &journal, i32::from(!whole));
    }
}

/// A run that writes the deliveries of a journal, and what it writes.
fn delivered(name: &str, journal: &[u8], words: &[&str]) -> (Run, Vec<u8>) {
    let path = temporary(name);
    let option = format!("--deliveries={}", path.display());
    let run = run_with(&[&["replay", "-", &option], words].concat(), journal);
    (run, std::fs::read(path).unwrap())
}

fn repl(key: &[u8], phys: u64, logical: u16, value: Option<&[u8]>) -> Vec<u8> {
    framed(&repl_message(key, stamp(phys, logical, 7), value))
}

/// Deliveries that are answered OK and one that is refused, of two keys, and
/// what is no delivery.
fn with_deliveries() -> Vec<u8> {
    let key = b"lamp".to_vec();
    let records = [
        record(10, &framed(&put_message(b"lamp", b"on"))),
        record(11, &repl(b"lamp", 9, 8, Some(b"off"))),
        record(12, &repl(b"lamp", 12, 65_535, None)),
        record(13, &[0, 6, 99, 0, 1, 2, 3, 4]),
        record(14, &framed(&Message::Get { key: key.clone() })),
        record(15, &repl(&[0xFF], 8, 8, None)),
        record(16, &repl(b"lamp", 8, 8, None)),
        record(17, &framed(&Message::Del { key })),
        record(18, &framed(&put_message(b"other", b"on"))),
    ];
    records.concat()
}

/// What stands in a report after the line with the number of records.
fn note(run: &Run) -> String {
    let lines = run.lines().into_iter();
    let note = lines.skip_while(|line| !line.starts_with("records: "));
    note.skip(1).map(|line| format!("{line}\n")).collect()
}

#[test]
fn the_deliveries_are_the_repl_frames_that_were_answered_ok() {
    let (all, list) = delivered("replay-delivered", &with_deliveries(), &[]);
    let (first, last) = (repl(b"lamp", 9, 8, Some(b"off")), repl(b"lamp", 8, 8, None));
    let other = repl(&[0xFF], 8, 8, None);
    assert!(list == [&first[..], &other, &last].concat());
    let audit = run_with(&["audit", "-", "lamp"], &list);
    assert!(audit
        .out
        .contains("delivery 0 is in force for \"lamp\":\n\"off\", "));
    let (lamp, list) = delivered("replay-of-lamp", &with_deliveries(), &["--key", "lamp"]);
    assert!(list == [first, last].concat());
    let words = ["--hex", "--key=0xff"];
    let (hex, list) = delivered("replay-of-hex", &with_deliveries(), &words);
    assert!(list == other);
    assert_eq!([all.status, lamp.status, hex.status], [0; 3]);
    let (status, err) = (0, String::new());
    let out = [all, lamp, hex].map(|run| note(&run)).join("\n");
    Run { status, out, err }.says(0, "replay-deliveries.txt");
}

#[test]
fn more_deliveries_than_an_audit_takes_are_told() {
    let repl = repl(b"lamp", 9, 8, None);
    let (run, list) = delivered("replay-many", &record(10, &repl).repeat(1001), &[]);
    assert!(list == repl.repeat(1001));
    let told = "snowpulley audit takes at most 1000 deliveries";
    let named = format!("{told}; --key KEY writes those of one key");
    assert_eq!(run.lines().last(), Some(&named.as_str()));
    let key = ["--key", "lamp"];
    let (run, _) = delivered("replay-many", &record(10, &repl).repeat(1001), &key);
    assert_eq!(run.lines().last(), Some(&told));
    let (run, _) = delivered("replay-many", &record(10, &repl).repeat(1000), &[]);
    assert!(!run.out.contains(told));
}

/// Of a journal with too many deliveries each key can still be audited.
#[test]
fn one_key_of_many_deliveries_can_be_audited() {
    let lamp = |phys| record(10, &repl(b"lamp", phys, 0, Some(b"on")));
    let others = record(10, &repl(b"other", 9, 8, None)).repeat(1200);
    let journal = [lamp(3), others, lamp(4), lamp(2)].concat();
    let (_, all) = delivered("replay-too-many", &journal, &[]);
    assert_eq!(run_with(&["audit", "-", "lamp"], &all).status, 1);
    let (_, list) = delivered("replay-few", &journal, &["--key", "lamp"]);
    let audit = run_with(&["audit", "-", "lamp"], &list);
    assert!(audit.status == 0 && audit.out.contains("delivery 1 is in force"));
}

#[test]
fn the_sample_has_a_line_for_each_record_and_a_summary() {
    let script = sample::script();
    let run = answered(&script.journal());
    let lines = run.lines();
    let (records, summary) = lines.split_at(script.steps.len());
    assert!(records.iter().all(|line| line.is_ascii()));
    let text = summary.join("\n") + "\n";
    Run { out: text, ..run }.says(0, "replay-sample-summary.txt");
}

#[test]
fn any_bytes_can_be_replayed() {
    let mut rng = Rng::new(17);
    let journal = sample::script().journal();
    for number in 0..20 {
        let mut damaged = journal.clone();
        damaged.truncate(rng.index(journal.len()).max(1));
        let at = rng.index(damaged.len());
        damaged[at] ^= 1 + rng.below(255) as u8;
        let run = answered(&damaged);
        assert!(
            run.status < 2 && run.err.is_empty(),
            "{number}: {}",
            run.err
        );
        let noise = rng.bytes(number * 40);
        assert!(answered(&noise).status < 2);
    }
}

/// A reader that has seen enough is no failure.
#[test]
fn a_closed_pipe_is_no_failure() {
    let path = file("replay-pipe", &sample::script().journal());
    let mut child = common::tool(&["replay".as_ref(), path.as_os_str()])
        .stdout(Stdio::piped())
        .stderr(Stdio::piped())
        .spawn()
        .expect("the tool runs");
    drop(child.stdout.take());
    let output = child.wait_with_output().expect("the tool ends");
    assert!(output.status.success() && output.stderr.is_empty());
}
