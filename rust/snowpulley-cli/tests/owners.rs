//! `snowpulley owners`, beside the reference's walks.

mod common;

use common::{run, Run};
use reference::peers::{Admission, PeerTable, DOWN};
use reference::ring::{build, key_position, owners, PLACES_MAX};
use reference::Refusal;

fn asked(options: &str, keys: &[&str]) -> Run {
    let options = options.split_whitespace();
    let args: Vec<&str> = ["owners"].into_iter().chain(options).collect();
    run(&[&args, keys].concat())
}

#[test]
fn owner_lists() {
    let keys = ["comp/scale-3", "zero", "−8 °C"];
    let run = asked("--ids 1,2,3,4 --down 3 --salt 0xA5A5A5A5", &keys);
    run.says(0, "owners.txt");
    asked("--ids 4 --vnodes 1 --count 1", &["k"]).says(0, "owners-one.txt");
}

#[test]
fn too_few_is_a_negative_answer() {
    let run = asked("--ids 1,2,3,4 --down 2,3", &["comp/scale-3"]);
    run.says(1, "owners-too-few.txt");
    assert_eq!(asked("--ids 1,2", &["k"]).status, 1);
    assert_eq!(asked("--ids 1,2 --count 2", &["k"]).status, 0);
}

#[test]
fn bad_arguments_are_told() {
    let key = ["k"];
    let fails = |options: &str, message: &str| asked(options, &key).fails(message);
    fails("--ids 1,1", "owners: --ids: 1 is listed twice");
    fails(
        "--ids 1,2,3,4,5,6,7,8,9,10,11",
        "owners: --ids: more than ten modules",
    );
    fails(
        "--ids 1,300",
        "owners: --ids: '300' is no number from 0 to 255",
    );
    fails(
        "--ids 1,2 --down 3",
        "owners: --down: 3 is not among the ids",
    );
    fails(
        "--ids 1,2 --down 1,2",
        "owners: --down: no module is up, and a DOWN one asks nothing",
    );
    fails(
        "--ids 1 --vnodes 65",
        "owners: --vnodes: '65' is no number from 1 to 64",
    );
    fails(
        "--ids 1 --count 4",
        "owners: --count: '4' is no number from 1 to 3",
    );
    fails(
        "--ids 1 --salt -1",
        "owners: --salt: '-1' is no number from 0 to 4294967295",
    );
    asked("--ids 1,2,3", &[]).fails("owners: KEY is missing");
    let reserved = asked("--ids 1,2,3", &["_sys:a"]);
    assert_eq!(reserved.status, 2);
    assert!(reserved
        .err
        .contains("key \"_sys:a\": refused with 1 BAD_KEY: "));
}

/// The reference's owners, as the tool writes them.
fn expected(ring: &[u64], table: &PeerTable, admission: Admission, position: u32) -> String {
    let mut out = [0; 3];
    match owners(ring, table, admission, position, 3, &mut out) {
        Ok(()) => out.map(|id| id.to_string()).join(", "),
        Err(Refusal::TooFew) => "TOO_FEW".to_string(),
        Err(other) => panic!("{other:?}"),
    }
}

#[test]
fn the_lists_are_the_references() {
    let (ids, salt) = ([1, 9, 40, 200], 77);
    let mut places = [0; PLACES_MAX];
    let count = build(&ids, 16, salt, &mut places).unwrap();
    let mut table = PeerTable::fresh(1, [0; 4], 0, 0, 0).unwrap();
    for &id in &ids[1..] {
        table = table.add(id, [0; 4], 0, 0, 0).unwrap();
    }
    table = table.reported(40, DOWN, 0, 0).unwrap();
    let keys: Vec<String> = (0..60).map(|n| format!("key-{n}")).collect();
    let words: Vec<&str> = keys.iter().map(String::as_str).collect();
    let run = asked("--ids 1,9,40,200 --vnodes 16 --salt 77 --down 40", &words);
    assert_eq!(run.status, 0);
    for (line, key) in run.lines()[3..].iter().zip(&keys) {
        let position = key_position(key.as_bytes(), salt).unwrap();
        let ring = &places[..count];
        let home = expected(ring, &table, Admission::Home, position);
        let standing = expected(ring, &table, Admission::Standing, position);
        let cells: Vec<&str> = line.split("  ").map(str::trim).collect();
        let cells: Vec<&str> = cells.into_iter().filter(|cell| !cell.is_empty()).collect();
        let (key, position) = (format!("{key:?}"), format!("{position:#010x}"));
        assert_eq!(cells, [key, position, home, standing]);
    }
}
