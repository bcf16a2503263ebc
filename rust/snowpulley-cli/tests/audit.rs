//! `snowpulley audit`, on lists of frames that the reference makes.

mod common;

use common::{file, here, run, run_with, temporary, Run};
use reference::frame::sealed;
use reference::store::{create, entries, image_length, offer, value, Entry};
use reference::value::{ACTIVE, TOMBSTONE};
use samples::script::{framed, put_message, record, repl_message, stamp};
use support::Rng;

const MORNING: u64 = 1_736_836_800_000;
const HOUR: u64 = 3_600_000;
const KEY: &[u8] = b"comp/scale-3";

fn repl(key: &[u8], at: (u64, u16, u8), value: Option<&[u8]>) -> Vec<u8> {
    framed(&repl_message(key, stamp(at.0, at.1, at.2), value))
}

/// Every outcome; text, bytes that are no text, deletions and long values.
fn frames() -> Vec<Vec<u8>> {
    let late = MORNING + 2 * HOUR;
    vec![
        repl(KEY, (MORNING, 7, 9), Some(b"-8C +120, 20C 0")),
        repl(b"zero", (late, 0, 2), Some(b"0")),
        repl(KEY, (MORNING + HOUR, 0, 2), None),
        repl(KEY, (late, 1, 3), Some(b"-8C +95, 20C 0")),
        repl(
            KEY,
            (late, 0, 9),
            Some(b"<b>-8C +90 & more</b>  later, long"),
        ),
        repl(KEY, (late, 1, 2), Some(&[0xC8; 33])),
        repl(KEY, (late, 1, 3), Some(b"-8C +95, 20C 0")),
        repl(b"test-load", (MORNING, 0, 1), Some(b"50 kg")),
        repl(b"test-load", (late, 0, 1), None),
        repl(&[0xFF, 0], (0, 0, 0), Some(&[b'v'; 512])),
    ]
}

fn list() -> Vec<u8> {
    frames().concat()
}

/// The answer on a list, with options and a key.
fn asked(list: &[u8], words: &[&str]) -> Run {
    run_with(&[&["audit", "-"], words].concat(), list)
}

#[test]
fn which_one_is_in_force_and_why_not_the_others() {
    asked(&list(), &["comp/scale-3"]).says(0, "audit.txt");
    asked(&list(), &["comp/scale-3", "--all"]).says(0, "audit-all.txt");
    let full = asked(&list(), &["comp/scale-3", "--full", "--all"]);
    assert!(full.out.contains(&"v".repeat(512)) && full.out.contains(&"c8".repeat(33)));
    let path = file("audit-list", &list());
    let named = run(&["audit".as_ref(), path.as_os_str(), "comp/scale-3".as_ref()]);
    let shown = format!("{path:?}");
    assert_eq!(
        named.out.replace(&shown, "standard input"),
        asked(&list(), &["comp/scale-3"]).out
    );
}

/// The latest time, long values of all kinds, and the longest outcome.
#[test]
fn tables_have_at_most_120_columns() {
    let last = (1 << 48) - 1;
    let values: [&[u8]; 5] = [&[b'"'; 512], &[0; 512], &[b'v'; 512], &[b'"'; 13], &[0; 14]];
    let frames = (0..).zip(values).map(|(node, value)| {
        let at = (last, 65_535, node);
        repl(KEY, at, Some(value))
    });
    let others = repl(b"other", (0, 0, 0), None).repeat(995);
    let list: Vec<u8> = others.into_iter().chain(frames.flatten()).collect();
    let run = asked(&list, &["comp/scale-3"]);
    let lines = run.lines().into_iter();
    let table = lines.skip_while(|line| !line.starts_with("delivery  "));
    let widest = table.map(str::len).max().unwrap();
    assert_eq!(widest, 120, "{}", run.out);
}

/// What a module wrote itself is not in the list, and the report says so.
#[test]
fn the_report_is_limited_to_the_list() {
    let at = |minutes: u64| MORNING + minutes * 60_000;
    let journal = [
        record(at(0), &repl(KEY, (at(0), 0, 2), Some(b"+120"))),
        record(at(1), &repl(KEY, (at(1), 0, 2), Some(b"+110"))),
        record(at(2), &framed(&put_message(KEY, b"+95"))),
    ];
    let [list, store] = ["audit-limited", "audit-limited.store"].map(temporary);
    let outputs = [&list, &store].map(|path| path.display().to_string());
    let words = [
        "replay",
        "-",
        "--deliveries",
        &outputs[0],
        "--store",
        &outputs[1],
    ];
    run_with(&words, &journal.concat());
    assert_eq!(value(&std::fs::read(store).unwrap(), KEY), b"+95");
    let run = asked(&std::fs::read(list).unwrap(), &["comp/scale-3"]);
    let lines = run.lines();
    assert_eq!(
        lines[0],
        "Of the deliveries in this list, delivery 1 is in force for \"comp/scale-3\":"
    );
    assert!(lines[1].starts_with("\"+110\", stamped "));
    let said = spaced(&run.out);
    assert!(said.contains("- The module's own PUT and DEL (what was set or deleted on the module"));
    assert!(said.contains("are not in the list. If one of them has a greater stamp, or the same"));
}

/// The words of a text with one space between them.
fn spaced(text: &str) -> String {
    text.split_whitespace().collect::<Vec<_>>().join(" ")
}

#[test]
fn a_deletion_and_keys_that_are_not_in_the_list() {
    asked(&list(), &["test-load"]).says(0, "audit-deleted.txt");
    asked(&list(), &["comp/scale-"]).says(1, "audit-never.txt");
    asked(&[], &["comp/scale-3"]).says(1, "audit-empty.txt");
    let all = asked(&list(), &["comp/scale-", "--all"]);
    assert_eq!(all.out.matches("another key\n").count(), frames().len());
}

#[test]
fn a_key_in_hexadecimal() {
    asked(&list(), &["--hex", "ff00"]).says(0, "audit-hex.txt");
    let out = asked(&list(), &["--hex", "ff00"]).out;
    for same in ["xff00", "FF00", "0xff00"] {
        assert_eq!(asked(&list(), &["--hex", same]).out, out);
    }
    for wrong in ["ff0", "x", "0x", "0xf", "fg", "é"] {
        let run = asked(&list(), &["--hex", wrong]);
        assert_eq!(run.status, 2, "{wrong}");
        assert!(run.err.starts_with("snowpulley: audit: "), "{run:?}");
    }
}

/// A stamp above all others of the key.
const REUSED: (u64, u16, u8) = (MORNING + 3 * HOUR, 0, 1);

/// Two deliveries with that stamp, and values that begin alike.
fn reused() -> Vec<Vec<u8>> {
    let values = [&b"-8C +97, 20C 0, 40C -10"[..], b"-8C +97, 20C 0, 40C -12"];
    let two = values.map(|value| repl(KEY, REUSED, Some(value)));
    frames().into_iter().chain(two).collect()
}

#[test]
fn a_reused_stamp_is_pointed_out() {
    let mut frames = reused();
    asked(&frames.concat(), &["comp/scale-3"]).says(0, "audit-reused-stamp.txt");
    let html = page("audit-reused.html", &frames.concat(), &["comp/scale-3"]);
    assert!(html.contains("<h2>The reused stamp</h2>\n<p>A delivery with the outcome \"same "));
    let (in_answer, note) = (
        "\nThis stamp was given to more than one entry, ",
        "\nThe reused stamp:\n",
    );
    let points_out = |run: &Run| {
        let said = run.out.contains(in_answer);
        assert_eq!((run.status, run.out.contains(note)), (0, said), "{run:?}");
        said
    };
    assert!(!points_out(&asked(&frames.concat(), &["test-load"])));
    frames.push(repl(KEY, REUSED, None));
    frames.push(repl(KEY, REUSED, Some(b"-8C +97")));
    let deleted = asked(&frames.concat(), &["comp/scale-3"]);
    assert!(points_out(&deleted) && deleted.lines()[1].starts_with("deleted, stamped "));
    let lower = "  same stamp, lower contents\n";
    assert_eq!(deleted.out.matches(lower).count(), 3);
    // Below a later stamp nobody compares them.
    frames.push(repl(KEY, (REUSED.0, 1, 1), Some(b"")));
    let later = asked(&frames.concat(), &["comp/scale-3"]);
    assert!(!points_out(&later) && !later.out.contains(lower));
}

/// What follows two right deliveries, and what it is.
fn tails() -> Vec<(&'static str, Vec<u8>)> {
    let frame = repl(KEY, (MORNING, 0, 1), Some(b"v"));
    let mut damaged = frame.clone();
    damaged[20] ^= 1;
    vec![
        ("one byte", frame[..1].to_vec()),
        (
            "all of a frame but one byte",
            frame[..frame.len() - 1].to_vec(),
        ),
        ("LEN 5", vec![0, 5, 1, 2, 3, 4, 5]),
        ("a damaged frame", damaged),
        (
            "a frame with other FLAGS",
            sealed(4, 1, &frame[4..frame.len() - 4]),
        ),
        ("a PUT", framed(&put_message(KEY, b"v"))),
        ("a record of a journal", record(MORNING, &frame)),
    ]
}

#[test]
fn lists_that_cannot_be_read_are_told() {
    let mut text = String::new();
    let mut tell = |what: &str, list: &[u8]| {
        let run = asked(list, &["comp/scale-3"]);
        assert_eq!((run.status, run.err.as_str()), (1, ""), "{what}");
        let (answer, _) = run.out.split_once("\n\n").unwrap();
        text += &format!("{what}:\n{answer}\n\n");
    };
    for (what, tail) in tails() {
        tell(what, &[&frames()[..2].concat(), &tail[..]].concat());
    }
    tell("one delivery, then one byte", &list()[..=frames()[0].len()]);
    let many = repl(KEY, (MORNING, 0, 1), None).repeat(1001);
    tell("1001 deliveries", &many);
    let (status, err) = (0, String::new());
    Run {
        status,
        out: text,
        err,
    }
    .says(0, "audit-unreadable.txt");
    asked(&list()[..100], &["comp/scale-3"]).says(1, "audit-cut.txt");
    let most = asked(&many[..many.len() / 1001 * 1000], &["comp/scale-3"]);
    assert_eq!(most.status, 0);
}

/// A journal is asked about, whether its first time looks like a LEN or not.
#[test]
fn a_journal_given_as_a_list_is_asked_about() {
    let records = |time: u64| {
        frames()
            .iter()
            .flat_map(|frame| record(time, frame))
            .collect()
    };
    let hint = "\nIs this a journal? See snowpulley replay --deliveries.\n\n";
    for time in [0, MORNING, 4 * MORNING] {
        let journal: Vec<u8> = records(time);
        for journal in [&journal[..], &journal[..60]] {
            let run = asked(journal, &["comp/scale-3"]);
            assert!(run.status == 1 && run.out.contains(hint), "{run:?}");
        }
    }
    let mut damaged = frames()[0].clone();
    damaged[20] ^= 1;
    let run = asked(&damaged, &["comp/scale-3"]);
    assert!(run.status == 1 && !run.out.contains("journal?"), "{run:?}");
}

/// The page that a run writes.
fn page(name: &str, list: &[u8], words: &[&str]) -> String {
    let path = temporary(name);
    let html = format!("--html={}", path.display());
    let run = asked(list, &[words, &[html.as_str()]].concat());
    assert!(run.status < 2 && run.err.is_empty(), "{run:?}");
    std::fs::read_to_string(path).unwrap()
}

/// Every element is closed, and nothing is loaded or run.
fn is_a_page(html: &str) {
    let names: Vec<&str> = html
        .split('<')
        .skip(1)
        .filter_map(|t| t.split([' ', '>']).next())
        .collect();
    let mut open = Vec::new();
    for name in names {
        match name.strip_prefix('/') {
            Some(name) => assert_eq!(open.pop(), Some(name)),
            None if ["!DOCTYPE", "meta", "col"].contains(&name) => {}
            None => open.push(name),
        }
    }
    assert!(open.is_empty(), "{open:?}");
    for word in ["<script", "<img", "<link", "url(", "http", "@import"] {
        assert!(!html.contains(word), "{word}");
    }
}

/// A page without the version of the tool.
fn unversioned(html: &str) -> String {
    let made = concat!("<p>Made by snowpulley ", env!("CARGO_PKG_VERSION"), ".</p>");
    assert!(html.contains(made));
    html.replace(made, "<p>Made by snowpulley VERSION.</p>")
}

#[test]
fn the_page() {
    let html = page("audit.html", &list(), &["comp/scale-3"]);
    is_a_page(&html);
    let (status, err) = (0, String::new());
    let out = unversioned(&html);
    Run { status, out, err }.says(0, "audit.html");
    let (_, body) = html.split_once("<body>").unwrap();
    assert!(body.contains(", 934 bytes, checksum CRC32C 0xdad0746d<"));
    assert!(html.contains("&lt;b&gt;-8C +90 &amp; more&lt;/b&gt;  later"));
    assert!(html.contains(&"c8".repeat(33)));
    let all = page("audit-all.html", &list(), &["comp/scale-3", "--all"]);
    is_a_page(&all);
    assert!(all.contains(&"v".repeat(512)) && all.contains("<td>xff00</td>"));
}

/// The page has what the text has, but for the marks before lines; what is
/// proved it says in more words.
#[test]
fn the_page_and_the_text_say_the_same() {
    let cut = &list()[..100];
    let reused = reused().concat();
    let lists = [&list()[..], &[], cut, &reused];
    for (number, list) in lists.into_iter().enumerate() {
        for key in ["comp/scale-3", "test-load", "<none> & \"such\""] {
            let words = [key, "--full"];
            let html = page(&format!("audit-same-{number}"), list, &words);
            is_a_page(&html);
            let (html, text) = (spaced(&html), asked(list, &words));
            let (before, proved) = text.out.split_once("\nProved: ").unwrap();
            let (_, limits) = proved.split_once("\n\n").unwrap();
            let texts = before.lines().chain(limits.lines());
            for part in texts.flat_map(|line| line.split("  ")) {
                let part = part.trim_start_matches("- ").trim_end_matches(':');
                let part = part.replace('&', "&amp;").replace('<', "&lt;");
                let part = spaced(&part.replace('>', "&gt;"));
                assert!(html.contains(&part), "{part}");
            }
        }
    }
}

/// A list and a key for each answer, and what its page names: the contract, then
/// the theorems.
fn answers() -> [(Vec<u8>, &'static str, &'static [&'static str]); 3] {
    [
        (
            list(),
            "comp/scale-3",
            &["explain", "winner_is_held", "reasons_mean"],
        ),
        (
            list(),
            "comp/scale-",
            &["explain", "none_means", "winner_is_held"],
        ),
        (
            list()[..100].to_vec(),
            "comp/scale-3",
            &["explain", "report_refused", "readable_exactly"],
        ),
    ]
}

/// The document for auditors speaks of all that the pages name.
#[test]
fn the_document_has_what_each_page_names() {
    let document = std::fs::read_to_string(here().join("../../docs/AUDIT.md")).unwrap();
    let mut feet = String::new();
    for (number, (list, key, expected)) in answers().into_iter().enumerate() {
        let html = page(&format!("audit-foot-{number}"), &list, &[key]);
        is_a_page(&html);
        let (_, foot) = html.split_once("<footer>").unwrap();
        let (foot, _) = foot.split_once("</footer>").unwrap();
        feet += &format!("<footer>{foot}</footer>\n");
        let names = foot.split("<code>").skip(1);
        let names: Vec<&str> = names.filter_map(|rest| rest.split('<').next()).collect();
        assert_eq!(names, expected);
        for name in names {
            let known = document.contains(&format!("`{name}`"));
            assert!(known, "docs/AUDIT.md does not name {name}");
        }
    }
    let (status, err) = (0, String::new());
    let out = unversioned(&feet);
    Run { status, out, err }.says(0, "audit-feet.html");
}

#[test]
fn bad_usage_is_told() {
    run(&["audit"]).fails("audit: LIST is missing");
    run(&["audit", "-"]).fails("audit: KEY is missing");
    run(&["audit", "-", "k", "l"]).fails("audit: too many words: 'l'");
    run(&["audit", "-", "k", "--html"]).fails("audit: --html needs a value");
    let reserved = asked(&list(), &["_sys:a"]);
    assert_eq!(reserved.status, 2);
    let told = "snowpulley: audit: key \"_sys:a\": refused with 1 BAD_KEY: ";
    assert!(reserved.err.starts_with(told), "{reserved:?}");
    // The list is looked at before the key.
    assert_eq!(asked(&list()[1..], &["_sys:a"]).status, 1);
    let dash = "audit: --html needs a file, not -; for a file of this name give ./-";
    run(&["audit", "-", "k", "--html", "-"]).fails(dash);
    let nowhere = temporary("no-such-folder").join("page.html");
    let run = asked(&list(), &["k", "--html", nowhere.to_str().unwrap()]);
    assert_eq!(run.status, 2);
    assert!(run.err.contains("page.html"), "{run:?}");
}

/// A list with few stamps and contents, and a store that was offered the
/// deliveries of "k".
fn any_list(rng: &mut Rng) -> (Vec<u8>, Vec<u8>) {
    let mut image = vec![0; image_length(1)];
    create(&mut image, 1).unwrap();
    let mut list = Vec::new();
    for _ in 0..1 + rng.below(30) {
        let (phys, logical, node) = (rng.below(3), rng.below(2), rng.below(2));
        let at = stamp(phys, logical as u16, node as u8);
        let end = ["", "0", "00", "1"][rng.index(4)];
        let value = format!("{phys}.{logical}.{node}.{end}");
        let value = (!rng.one_in(5)).then_some(value.as_bytes());
        let key = if rng.one_in(3) { b"l" } else { b"k" };
        list.extend(framed(&repl_message(key, at, value)));
        if key == b"k" {
            let flag = if value.is_some() { ACTIVE } else { TOMBSTONE };
            offer(&mut image, key, value.unwrap_or_default(), flag, at).unwrap();
        }
    }
    (list, image)
}

/// What the answer on "k" says of the entry that a store holds.
fn said_of(held: Option<&Entry>) -> String {
    let Some(entry) = held else {
        return "The list has no delivery of \"k\".\n".to_string();
    };
    let content = match entry.flag {
        TOMBSTONE => "deleted".to_string(),
        _ => format!("{:?}", String::from_utf8_lossy(&entry.value)),
    };
    let (phys, node) = (entry.stamp.phys, entry.stamp.node);
    let stamped = format!("stamped 1970-01-01 00:00:00.00{phys} UTC by module {node}.");
    format!(" is in force for \"k\":\n{content}, {stamped}\n")
}

/// A store that was offered the key's deliveries holds what the tool names.
#[test]
fn the_one_in_force_is_the_one_that_the_reference_holds() {
    let mut rng = Rng::new(23);
    let mut reused = 0;
    for _ in 0..40 {
        let (list, image) = any_list(&mut rng);
        let (run, held) = (asked(&list, &["k"]), entries(&image).unwrap());
        assert!(run.out.contains(&said_of(held.first())), "{run:?}");
        assert_eq!(run.status, i32::from(held.is_empty()));
        reused += run
            .out
            .matches("\nThis stamp was given to more than one entry, ")
            .count();
    }
    assert!(reused > 10, "{reused}");
}

/// Whatever the bytes are, there is an answer, and no control code is printed.
#[test]
fn any_bytes_can_be_audited() {
    let mut rng = Rng::new(29);
    for number in 0..40 {
        let mut damaged = list();
        let at = rng.index(damaged.len());
        damaged[at] ^= 1 + rng.below(255) as u8;
        for bytes in [damaged, rng.bytes(1 + number * 9)] {
            let run = asked(&bytes, &["comp/scale-3", "--all"]);
            assert_eq!((run.status, run.err.as_str()), (1, ""));
            assert!(run.lines()[1].contains("cannot be read"), "{run:?}");
            assert!(!run.out.chars().any(|c| c.is_control() && c != '\n'));
        }
    }
}
