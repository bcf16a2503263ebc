//! How the output of a check is read, and what an edit asks of it.

use mutants::antt::{add_laws, Laws};
use mutants::edit::{Edit, Files};
use mutants::fit;
use mutants::group::{bodies, grouped};
use mutants::log::{Log, Standing, Verdict};

const LOG: &str = "\
./proofs/Laws.antt:70:7: error: `length_back`: `rw`: no occurrence of the path's left endpoint in the goal
./proofs/Laws.antt:75:26: error: 4 declarations that depend on `length_back`, which was rejected, were not checked: round_trip, last (via round_trip) and 2 more
./proofs/reading/ends/Answers.antt:3:1: error: `returns`: `goal.returns`: module `Rattle.frame.proofs.reading.ends.Goals` has no `returns` that can be named from here
./proofs/read/Answers.antt:67:5: error: 1 declaration that depends on `close`, which was not admitted, was not checked: read_spec
fn frame::reading::ends: not proved
fn frame::reading::number: proved
fn frame::read: no proof: it calls `frame::reading::ends`, which is not proved
fn frame::told: not proved; it calls `frame::reading::ends`, which is not proved
logic /kit/antt-project.json: libraries=16 files=2756 sum=0
crate frame: modules loaded=311 checked=13
logic=not-proved
rt: rt check --only frame::reading::ends checks that function and what it calls, and not the rest
";

#[test]
fn each_function_has_its_standing() {
    let log = Log::read(LOG, true);
    assert_eq!(log.verdict, Verdict::Fact);
    assert_eq!(log.standing("ends"), Some(Standing::Refused));
    assert_eq!(log.standing("number"), Some(Standing::Proved));
    assert_eq!(log.standing("read"), Some(Standing::Above));
    assert_eq!(log.standing("told"), Some(Standing::Above));
    assert_eq!(log.standing("gone"), None);
    assert_eq!(log.verdict_on("ends"), Some(Verdict::Unfit));
    assert_eq!(log.verdict_on("number"), Some(Verdict::Proved));
    assert_eq!(log.verdict_on("read"), None);
    assert_eq!(
        log.proofs_of("ends").as_deref(),
        Some("proofs/reading/ends")
    );
}

#[test]
fn a_theorem_falls_with_a_law_it_is_made_of() {
    let log = Log::read(LOG, true);
    let mut laws = Laws::new();
    add_laws(&mut laws, "pub length_back : A\nlength_back = refl\npub round_trip : B\nround_trip = (length_back x)\n");
    add_laws(
        &mut laws,
        "module _ where\n  read_spec : C\n  read_spec = close\n",
    );
    add_laws(
        &mut laws,
        "counted : A\ncounted = round_trip\nstands : A\nstands = close\n",
    );
    assert!(log.theorem_refused("round_trip", &laws) && log.theorem_refused("length_back", &laws));
    assert!(log.theorem_refused("counted", &laws) && !log.theorem_refused("stands", &laws));
    assert!(!log.theorem_refused("read_spec", &laws) && !log.theorem_refused("another", &laws));
    let all_listed = Log::read(&LOG.replace(" and 2 more", ""), true);
    assert!(!all_listed.theorem_refused("counted", &laws));
}

#[test]
fn a_function_without_answers_is_refused_for_a_fact() {
    let log = "\
note: src/lib.rt:99:5: it is not proved that what the function ensures holds when it returns (`returns`)
fn clock::Clock::fresh: no proof: expected answers in ./proofs/Clock/fresh/Answers.antt; `search` did not prove `returns`
logic=not-proved
";
    let log = Log::read(log, true);
    assert_eq!(
        (log.verdict, log.verdict_on("Clock::fresh")),
        (Verdict::Fact, Some(Verdict::Fact))
    );
}

/// What is said where an edit changes the name of a fact, and rattle looks for a proof of the fact by itself.
const RENAMED: &str = "\
./proofs/a/Answers.antt:1:38: error: `returns-then-not-b`: `goal.returns-then-not-b`: module `Rattle.wire.proofs.a.Goals` has no `returns-then-not-b` that can be named from here (names in it that begin alike: `returns`)
./proofs/a/Answers.antt:5:9: error: `loop-i-preserved`: record `Rattle.wire.proofs.a.Lts.View.In-Else-b` has no field `if-not-b` (nearest: .if-b, .b)
note: src/lib.rt:9:13: it is not proved that what the function ensures holds when it returns (`returns-then-b`); `search` gave up at one of its limits
fn wire::a: not proved
help: `Goals` has no `returns-then-not-b`; rattle asks for `returns-then-b`, `loop-i-preserved` and 9 more; a `use` line of it can name these places: `Then-b`
logic=not-proved
";

const ANSWERS: &str = "\
pub returns-then-not-b : goal.returns-then-not-b
returns-then-not-b c = f c.if-not-b.true c.if-not-b-2

pub loop-i-preserved : goal.loop-i-preserved
loop-i-preserved c = c.if-not-b.false
";

#[test]
fn a_fact_with_another_name_shows_nothing() {
    let log = Log::read(RENAMED, true);
    assert_eq!(log.verdict, Verdict::Unfit);
    assert_eq!(log.verdict_on("a"), Some(Verdict::Unfit));
    assert!(!edit("x", "y", "a").is_met(&log, &Laws::new()));
    // unless another answer does not prove its fact, or a fact is seen to be false
    let more =
        "./proofs/a/Answers.antt:9:1: error: `returns`: expected type `A`, but this has type `B`\n";
    let log = Log::read(&(RENAMED.to_string() + more), true);
    assert_eq!(log.verdict_on("a"), Some(Verdict::Fact));
    let seen = "; the facts known there allow values at which this goal is false";
    let log = Log::read(
        &RENAMED.replace("; `search` gave up at one of its limits", seen),
        true,
    );
    assert_eq!(log.verdict_on("a"), Some(Verdict::Fact));
}

#[test]
fn answers_get_the_names_that_are_asked_for() {
    let log = Log::read(RENAMED, true);
    let file = "proofs/a/Answers.antt".to_string();
    let proofs = Files::from([(file.clone(), ANSWERS.to_string())]);
    let fitted = fit::fitted(&log, "a", &proofs).expect("other names");
    let expected = ANSWERS
        .replace("returns-then-not-b", "returns-then-b")
        .replace("c.if-not-b.", "c.if-b.");
    assert_eq!(fitted[&file], expected);
    assert_eq!(fit::fitted(&log, "a", &fitted), None);
    let other = Log::read(
        &RENAMED.replace("-then-b`", "-far-away-from-all-that`"),
        true,
    );
    let kept = fit::fitted(&other, "a", &proofs).expect("another field");
    assert!(kept[&file].contains("goal.returns-then-not-b\n"));
}

#[test]
fn a_definition_that_does_not_stand_shows_nothing() {
    let log = "./specs/Owners.antt:25:12: error: `owners_answer`: `leb` is not in scope
./proofs/Found.antt:9:1: error: 1 declaration that depends on `owners_answer`, which was rejected, was not checked: too_few
fn ring::owners: not proved
logic=not-proved
";
    let log = Log::read(log, true);
    assert_eq!(log.verdict, Verdict::NotCompiled);
    assert_eq!(log.verdict_on("owners"), None);
    let mut laws = Laws::new();
    add_laws(&mut laws, "pub too_few : A\ntoo_few = owners_answer\n");
    assert!(!log.theorem_refused("too_few", &laws));
    let clause = "src/lib.rt:25:12: error: `gone` is not in scope\nlogic=not-proved\n";
    assert_eq!(Log::read(clause, true).verdict, Verdict::NotCompiled);
}

#[test]
fn the_last_line_decides() {
    assert_eq!(
        Log::read("logic=proved functions=3", true).verdict,
        Verdict::Proved
    );
    assert_eq!(
        Log::read("error: no such name", true).verdict,
        Verdict::NotCompiled
    );
    assert_eq!(
        Log::read("logic=proved functions=3", false).verdict,
        Verdict::NoVerdict
    );
    let limit = "./proofs/A.antt:1:1: error: `a`: antt ran out of stack\nlogic=no-verdict\n";
    assert_eq!(Log::read(limit, true).verdict, Verdict::NoVerdict);
}

const CODE: &str = "
fn low(n: u8) -> bool { n < 9 }
fn high(n: u8) -> bool { 200 < n }
pub fn both(n: u8) -> bool { low(n) && high(n) }
";

fn edit(old: &str, new: &str, expect: &str) -> Edit {
    let text = format!("file: src/lib.rt\nold: {old}\nnew: {new}\nexpect: {expect}\n");
    Edit::read("a", "label", &text).unwrap()
}

#[test]
fn an_edit_changes_a_text_that_stands_once() {
    let mut files = Files::from([("src/lib.rt".to_string(), CODE.to_string())]);
    edit("n < 9", "n <= 9", "low").apply(&mut files).unwrap();
    assert!(files["src/lib.rt"].contains("{ n <= 9 }"));
    assert!(edit("u8", "u16", "low").apply(&mut files).is_err());
    assert!(edit("no such", "text", "low").apply(&mut files).is_err());
    assert!(Edit::read("a", "b", "file: src/lib.rt\nold: x\nnew: y\n").is_err());
    let two_lines = "file: src/lib.rt\nold: x\n  more\nnew: y\nexpect: f\n";
    assert!(Edit::read("a", "b", two_lines).is_err());
    assert!(Edit::read("a", "b", "file: src/lib.rt\nold: x\nnew: x\nexpect: f\n").is_err());
}

#[test]
fn edits_of_functions_that_do_not_reach_each_other_share_a_check() {
    let files = Files::from([("src/lib.rt".to_string(), CODE.to_string())]);
    let bodies = bodies(&files);
    let edits = [
        edit("n < 9", "n <= 9", "low"),
        edit("200 < n", "200 <= n", "high"),
        edit("&&", "||", "both"),
        edit("n < 9", "n < 8", "low"),
        edit("low(n: u8)", "low(n: u16)", "low"),
    ];
    let places: Vec<_> = edits.iter().map(|e| e.place(&bodies)).collect();
    assert!(places[4].is_none());
    assert_eq!(
        grouped(&places, &bodies),
        [vec![0, 1], vec![2], vec![3], vec![4]]
    );
}
