//! `snowpulley offer`, on images that the reference makes.

mod common;

use common::{file, offered, run, run_with, store_of, temporary, Given, Run};
use reference::store::purge;
use std::fs;
use std::path::Path;

/// 2025-01-14 06:40:00 UTC.
const MORNING: u64 = 1_736_836_800_000;
const HOUR: u64 = 3_600_000;

/// It slept: one entry is newer than the neighbour's, one older, one new, and
/// one was deleted meanwhile.
const SLEPT: [Given<'_>; 4] = [
    (b"comp/scale-3", b"+95 ppm", 0, MORNING + 3 * HOUR),
    (b"comp/scale-4", b"+10 ppm", 0, MORNING),
    (b"comp/scale-5", b"0 ppm", 0, MORNING + 2 * HOUR),
    (b"test-load", b"50 kg", 0, MORNING),
];

fn neighbour() -> Vec<u8> {
    let entries: [Given<'_>; 3] = [
        (b"comp/scale-3", b"+120 ppm", 0, MORNING),
        (b"comp/scale-4", b"+12 ppm", 0, MORNING + HOUR),
        (b"test-load", b"", 1, MORNING + 1),
    ];
    let mut image = store_of(3, &entries);
    purge(&mut image, MORNING + HOUR).unwrap();
    image
}

/// A store after all that was offered.
fn met(mut image: Vec<u8>) -> Vec<u8> {
    for entry in SLEPT {
        offered(&mut image, entry);
    }
    image
}

/// Runs the command, with the files' names in the report replaced.
fn offer_file(giver: &Path, receiver: &Path) -> Run {
    let [giver, receiver] = [giver, receiver].map(|path| path.to_str().unwrap());
    let mut run = run(&["offer", giver, receiver]);
    run.out = run.out.replace(giver, "slept").replace(receiver, "met");
    run
}

#[test]
fn what_is_newer_is_taken() {
    let slept = file("offer-slept", &store_of(4, &SLEPT));
    let met_file = file("offer-met", &neighbour());
    offer_file(&slept, &met_file).says(1, "offer.txt");
    assert_eq!(fs::read(&met_file).unwrap(), met(neighbour()));
    assert_eq!(fs::read(&slept).unwrap(), store_of(4, &SLEPT));
    // Made anew as a copy, it has nothing to offer.
    fs::copy(&met_file, &slept).unwrap();
    offer_file(&slept, &met_file).says(0, "offer-again.txt");
    assert_eq!(fs::read(&met_file).unwrap(), met(neighbour()));
}

#[test]
fn a_full_store_says_so() {
    let mut full = neighbour();
    assert!(offered(&mut full, (b"site", b"7", 0, MORNING + HOUR)));
    let slept = file("offer-slept-2", &store_of(4, &SLEPT));
    let met_file = file("offer-met-2", &full);
    offer_file(&slept, &met_file).says(1, "offer-full.txt");
    assert_eq!(fs::read(&met_file).unwrap(), met(full));
}

#[test]
fn another_file_is_written() {
    let (slept, receiver) = (store_of(4, &SLEPT), neighbour());
    let [slept_file, met_file] = [("offer-from", &slept), ("offer-to", &receiver)]
        .map(|(name, bytes)| file(name, bytes).to_str().unwrap().to_string());
    let output = temporary("offer-output");
    let output = output.to_str().unwrap();
    for (giver, receiver_file, input) in [
        (slept_file.as_str(), met_file.as_str(), &[][..]),
        ("-", &met_file, &slept),
        (&slept_file, "-", &receiver),
    ] {
        let words = ["offer", giver, receiver_file, "--output", output];
        let told = run_with(&words, input);
        assert!(told.status == 1 && told.out.starts_with(&format!("{output:?}: offered what ")));
        assert_eq!(fs::read(output).unwrap(), met(receiver.clone()));
        fs::remove_file(output).unwrap();
    }
    assert_eq!(fs::read(&met_file).unwrap(), receiver);
    for input in [&slept_file, &met_file] {
        let told = format!("{input:?} is the same file as {input:?}, which would be overwritten");
        let words = ["offer", &slept_file, &met_file, "--output", input];
        run(&words).fails(&format!("offer: {told}"));
    }
}

#[test]
fn what_is_not_sound_is_left_as_it_is() {
    let mut damaged = store_of(4, &SLEPT);
    damaged[100] ^= 1;
    let damaged_file = file("offer-damaged", &damaged);
    let met_file = file("offer-sound", &neighbour());
    for (giver, receiver) in [(&damaged_file, &met_file), (&met_file, &damaged_file)] {
        let told = run(&["offer", giver.to_str().unwrap(), receiver.to_str().unwrap()]);
        let refused = "nothing is offered: refused with 5 BAD_STORE: a store buffer that is not";
        assert!(told
            .out
            .starts_with(&format!("{damaged_file:?}: {refused}")));
        assert_eq!(told.status, 1);
    }
    assert_eq!(fs::read(&damaged_file).unwrap(), damaged);
    assert_eq!(fs::read(&met_file).unwrap(), neighbour());
}
