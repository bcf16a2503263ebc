//! Every family with fixed seeds. The cases must also reach every refusal
//! that the header names for a call, and each of its answers.

use differential::families::reused::{LOWER_TIES, TIES};
use differential::families::{clock, handler, overtaking, purge};
use differential::FAMILIES;

/// How many shares of cases each family runs, from several seeds.
const SHARES: u64 = 40;
const SEEDS: [u64; 3] = [1, 2025, 0xD1FF];

/// A call, the answers it must have given and its refusals.
type Reach = (&'static str, &'static [u32], &'static [u32]);

fn run(name: &str, reach: &[Reach]) {
    let family = FAMILIES.iter().find(|f| f.name == name).unwrap();
    let tallies = SEEDS.map(|seed| (family.run)(seed, SHARES * family.share));
    let compared: u64 = tallies.iter().map(|t| t.compared).sum();
    println!("{name}: {compared} calls compared");
    for (call, answers, refusals) in reach {
        let refused = refusals.iter().map(|refusal| refusal << 16);
        for result in answers.iter().copied().chain(refused) {
            let times: u64 = tallies.iter().map(|t| t.times(call, result)).sum();
            assert!(times >= 10, "{call}: result {result:#x} {times} times");
        }
    }
}

#[test]
fn checksums() {
    run("checksums", &[]);
}

#[test]
fn frames() {
    let reach: [Reach; 9] = [
        ("frame_read", &[0], &[3, 1, 2, 4]),
        ("write_put", &[], &[1, 2, 4]),
        ("write_get", &[], &[1, 4]),
        ("write_del", &[], &[1, 4]),
        ("write_repl", &[], &[9, 1, 2, 17, 4]),
        ("write_ok", &[], &[4]),
        ("write_value", &[], &[2, 4]),
        ("write_not_found", &[], &[4]),
        ("write_err", &[], &[17, 4]),
    ];
    run("frames", &reach);
}

#[test]
fn clock() {
    let reach: [Reach; 4] = [
        ("clock_fresh", &[0], &[4]),
        ("clock_send", &[0], &[17, 9, 8]),
        ("clock_receive", &[0], &[17, 9, 8]),
        ("receive at an equal time", &clock::EQUAL_TIMES, &[]),
    ];
    run("clock", &reach);
}

#[test]
fn peers() {
    let reach: [Reach; 6] = [
        ("peers_fresh", &[0], &[9, 4]),
        ("peers_add", &[0], &[9, 17, 14, 13]),
        ("peers_heard", &[0], &[9, 17, 15, 11, 12]),
        ("peers_reported", &[0], &[9, 17, 15, 11, 12]),
        ("peers_tick", &[0], &[9, 17]),
        ("peers_is_sound", &[0, 1], &[]),
    ];
    run("peers", &reach);
}

#[test]
fn ring() {
    let reach: [Reach; 4] = [
        ("key_position", &[0], &[1, 4]),
        ("ring_build", &[0], &[17, 4]),
        ("ring_is_sound", &[0, 1], &[]),
        ("owners", &[0], &[17, 16, 10, 4]),
    ];
    run("ring", &reach);
}

#[test]
fn store() {
    let reach: [Reach; 14] = [
        ("store_create", &[0], &[17, 4]),
        ("store_is_sound", &[0, 1], &[]),
        ("store_lookup", &[0, 1, 2], &[5, 1, 4]),
        ("store_entry", &[0], &[5, 17, 4]),
        ("store_offer", &[0, 1, 2], &[5, 9, 1, 2, 17, 34, 6]),
        ("store_merge", &[0, 1, 2], &[5, 35, 6]),
        ("store_line", &[0], &[5, 4]),
        ("store_purge", &[0, 1, 2], &[5, 9, 33]),
        ("offer below the line", &purge::BELOW, &[]),
        ("purge about the line", &[0, 1, 2, 3, 4, 5], &[]),
        ("merge that fits by what it passes over", &[1], &[]),
        ("removed, then refused", &[0, 1], &[]),
        ("offer at an equal stamp", &TIES, &[]),
        ("merge at an equal stamp", &TIES, &[]),
    ];
    run("store", &reach);
}

#[test]
fn handler() {
    let met = "REPL at an equal time, then a write";
    let reach: [Reach; 7] = [
        ("handle", &[], &[17, 4, 5, 9, 3, 1, 2, 8, 7, 34, 6]),
        (met, &handler::EQUAL_TIMES, &[]),
        ("overtaken", &overtaking::OVERTAKEN, &[]),
        ("passed", &overtaking::PASSED, &[]),
        ("refused below the line", &handler::BELOW, &[]),
        ("local write at an equal stamp", &TIES, &[]),
        ("REPL at an equal stamp", &TIES, &[]),
    ];
    run("handler", &reach);
}

/// The winner is 65,535 where the key was never delivered. A list of 1,001
/// frames is refused as any other that is not readable.
#[test]
fn explain() {
    let reach: [Reach; 8] = [
        ("deliveries", &[0, 1, 2], &[17]),
        ("readable", &[0, 1, 2, 3, 20, 1000], &[]),
        ("explain", &[], &[17, 1, 4]),
        ("winner", &[0, 1, 2, 3, 20, 65_535], &[]),
        ("reason", &[0, 1, 2, 3, 4, 5, 6], &[]),
        ("lower contents before the winner", &LOWER_TIES, &[]),
        ("lower contents behind the winner", &LOWER_TIES, &[]),
        ("frames", &[1001], &[]),
    ];
    run("explain", &reach);
}

#[test]
fn every_family_has_a_test() {
    let names = FAMILIES.map(|f| f.name);
    let tested = [
        "checksums",
        "frames",
        "clock",
        "peers",
        "ring",
        "store",
        "handler",
        "explain",
    ];
    assert_eq!(names, tested);
}
