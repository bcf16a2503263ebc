//! CRC32C and the mixer.

use crate::make::{number32, pick};
use crate::run::{cases, Run, Tally};
use crate::same;
use support::Rng;

pub fn run(seed: u64, count: u64) -> Tally {
    cases("checksums", seed, count, case)
}

fn case(run: &mut Run, rng: &mut Rng) {
    let length = match rng.below(40) {
        0 => 59_616,
        1 => rng.index(5000),
        2..=9 => pick(rng, &[0, 1, 2, 31, 32, 33, 255, 256, 592, 596, 600]),
        _ => rng.index(100),
    };
    let mut bytes = content(rng, length);
    // Also from addresses that are no multiple of 8.
    let skip = rng.index(9).min(length);
    same!(run, crc32c, &mut bytes, |b| (&b[skip..]));
    for _ in 0..4 {
        let h = number32(rng);
        same!(run, fmix32, &mut (), |_b| (h));
        let h = 1 << rng.below(32);
        same!(run, fmix32, &mut (), |_b| (h));
    }
}

fn content(rng: &mut Rng, length: usize) -> Vec<u8> {
    match rng.below(5) {
        0 => vec![0; length],
        1 => vec![0xFF; length],
        2 => {
            let mut one_bit = vec![0; length];
            if length > 0 {
                one_bit[rng.index(length)] = 1 << rng.below(8);
            }
            one_bit
        }
        _ => rng.bytes(length),
    }
}
