//! Help, bad usage and exit statuses.

mod common;

use common::run;

const COMMANDS: [&str; 9] = [
    "demo", "show", "purge", "offer", "replay", "audit", "owners", "ring", "refusal",
];

#[test]
fn the_help_lists_the_commands_and_statuses() {
    let help = run(&["--help"]);
    help.says(0, "help.txt");
    assert!(help.lines().iter().all(|line| line.len() <= 80));
    assert_eq!(run(&["help"]).out, run(&["-h"]).out);
    let version = format!("snowpulley {}\n", env!("CARGO_PKG_VERSION"));
    assert_eq!(run(&["--version"]).out, version);
}

#[test]
fn every_command_has_help() {
    for command in COMMANDS {
        let help = run(&[command, "--help"]);
        assert_eq!(help.status, 0);
        assert!(help.out.starts_with(&format!("snowpulley {command}")));
        assert!(help.out.contains("Exit status: 0"));
        assert!(help.lines().iter().all(|line| line.len() <= 80));
        assert!(run(&["--help"]).out.contains(&format!("\n  {command} ")));
    }
    run(&["ring", "--help"]).says(0, "help-ring.txt");
    run(&["audit", "--help"]).says(0, "help-audit.txt");
    run(&["purge", "--help"]).says(0, "help-purge.txt");
    run(&["offer", "--help"]).says(0, "help-offer.txt");
    run(&["replay", "--help"]).says(0, "help-replay.txt");
}

#[test]
fn bad_usage_is_told() {
    let none = run::<&str>(&[]);
    assert_eq!(none.status, 2);
    assert!(none
        .err
        .starts_with("snowpulley: no command\n\nsnowpulley COMMAND"));
    run(&["shwo"]).fails("no command 'shwo'; see snowpulley --help");
    run(&["show"]).fails("show: STORE is missing");
    run(&["show", "a", "b"]).fails("show: too many words: 'b'");
    run(&["show", "--fill", "a"]).fails("show: no option '--fill'");
    run(&["demo", "now"]).fails("demo: too many words: 'now'");
    run(&["purge"]).fails("purge: STORE is missing");
    run(&["purge", "a"]).fails("purge: LINE is missing");
    run(&["purge", "-", "1"]).fails("purge: standard input needs --output FILE");
    for word in ["281474976710656", "x", "", "2025-02-29", "2025-01-14 06:40"] {
        let told = "is no date, as 2025-01-14 or 2025-01-14T06:40, and no number of milliseconds \
                    from 0 to 281474976710655";
        run(&["purge", "a", word]).fails(&format!("purge: LINE: '{word}' {told}"));
    }
    let told = "is later than this computer's time; if that is right, give --future";
    run(&["purge", "a", "17368368000000"])
        .fails(&format!("purge: LINE: 2520-05-19 18:40:00.000 UTC {told}"));
    run(&["offer"]).fails("offer: GIVER is missing");
    run(&["offer", "a"]).fails("offer: RECEIVER is missing");
    run(&["offer", "a", "-"]).fails("offer: standard input needs --output FILE");
    let both = ["offer", "-", "-", "--output", "b"];
    run(&both).fails("offer: GIVER and RECEIVER are both standard input");
    run(&["replay", "--store"]).fails("replay: --store needs a value");
    run(&["replay", "-", "--key", "k"]).fails("replay: --key needs --deliveries");
    run(&["replay", "-", "--hex"]).fails("replay: --hex needs --key");
    run(&["owners", "k"]).fails("owners: --ids is missing, as --ids 1,2,3,4");
    run(&["refusal", "x"]).fails("refusal: N: 'x' is no number from 0 to 65535");
    run(&["refusal", "1", "2"]).fails("refusal: too many words: '2'");
}

#[cfg(unix)]
#[test]
fn words_that_are_no_text_are_told() {
    use std::ffi::OsStr;
    use std::os::unix::ffi::OsStrExt;
    let word = OsStr::from_bytes(b"k\xFF");
    let args = ["owners", "--ids", "1,2,3"].map(OsStr::new);
    let run = run(&[&args[..], &[word]].concat());
    run.fails("owners: 'k\u{FFFD}' is no UTF-8 text");
}
