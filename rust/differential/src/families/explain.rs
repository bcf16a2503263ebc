//! Lists of deliveries, and why one of them is in force.

use super::list::{any, faulty, of_length};
use super::reused::tie;
use crate::make::{any_key, near, pool_key};
use crate::run::{cases, Run, Tally};
use crate::same;
use reference::deliveries;
use reference::explain::LOWER_CONTENT;
use support::Rng;

pub fn run(seed: u64, count: u64) -> Tally {
    cases("explain", seed, count, case)
}

fn case(run: &mut Run, rng: &mut Rng) {
    let list = any(rng);
    let frames = list.frames.len();
    run.count("frames", frames as u32);
    let lists = [list.frames.concat(), faulty(rng, &list.frames)];
    for mut bytes in lists {
        let count = counted(run, &mut bytes).unwrap_or(frames);
        for _ in 0..3 {
            let key = key(rng, &list.keys);
            let length = near(rng, count);
            let mut lent = (bytes.clone(), rng.bytes(length));
            ask(run, &mut lent, &key, count);
        }
    }
    if rng.one_in(100) {
        every_fault(run, rng);
    }
}

/// A key: mostly one of the list's.
fn key(rng: &mut Rng, keys: &[Vec<u8>]) -> Vec<u8> {
    match rng.below(10) {
        0 => any_key(rng),
        1 => pool_key(rng),
        _ => keys[rng.index(keys.len())].clone(),
    }
}

/// The number of deliveries, if the list is readable.
fn counted(run: &mut Run, list: &mut Vec<u8>) -> Option<usize> {
    let result = same!(run, deliveries, list, |list| (list));
    let readable = result >> 16 == 0;
    readable.then(|| {
        run.count("readable", result);
        result as usize
    })
}

/// Asks for a key; lent are the list, which has so many deliveries if it is
/// readable, and the output.
fn ask(run: &mut Run, lent: &mut (Vec<u8>, Vec<u8>), key: &[u8], count: usize) {
    let answer = same!(run, explain, lent, |l| (&l.0, key, &mut l.1));
    if answer >> 16 == 0 {
        run.count("winner", answer);
        let reasons = &lent.1[..count];
        for &reason in reasons {
            run.count("reason", reason.into());
        }
        if reasons.contains(&LOWER_CONTENT) {
            count_ties(run, &lent.0, reasons, answer as usize);
        }
    }
}

/// Counts by what deliveries with the winner's stamp have lower contents, and
/// on which side of the winner they stand.
fn count_ties(run: &mut Run, list: &[u8], reasons: &[u8], winner: usize) {
    let deliveries = deliveries::read(list).expect("a list that was explained");
    for (place, delivery) in deliveries.iter().enumerate() {
        if reasons[place] == LOWER_CONTENT {
            let what = if place < winner {
                "lower contents before the winner"
            } else {
                "lower contents behind the winner"
            };
            run.count(what, tie(&deliveries[winner].entry, &delivery.entry));
        }
    }
}

/// Every cut and every flipped bit of a small list.
fn every_fault(run: &mut Run, rng: &mut Rng) {
    let frames = 1 + rng.index(3);
    let list = of_length(rng, frames);
    let bytes = list.frames.concat();
    if bytes.len() > 150 {
        // Long keys or values would take long and show no more.
        return;
    }
    let cuts = (0..bytes.len()).map(|length| bytes[..length].to_vec());
    let flips = (0..bytes.len() * 8).map(|bit| {
        let mut flipped = bytes.clone();
        flipped[bit / 8] ^= 1 << (bit % 8);
        flipped
    });
    for mut wrong in cuts.chain(flips) {
        let count = counted(run, &mut wrong).unwrap_or(frames);
        let mut lent = (wrong, vec![9; frames]);
        ask(run, &mut lent, &list.keys[0], count);
    }
}
