//! Clock steps: histories of readings, and single steps on any words.

use crate::make::{any_time, near, number32, pick, words};
use crate::run::{cases, Run, Tally};
use crate::same;
use reference::stamp::TIME_END;
use std::cmp::Ordering;
use support::Rng;

pub fn run(seed: u64, count: u64) -> Tally {
    cases("clock", seed, count, case)
}

fn case(run: &mut Run, rng: &mut Rng) {
    match rng.below(3) {
        0 => history(run, rng),
        1 => fresh(run, rng),
        _ => single(run, rng),
    }
}

fn fresh(run: &mut Run, rng: &mut Rng) {
    let length = near(rng, 4);
    let mut clock = words(rng, length);
    let node = rng.byte();
    same!(run, clock_fresh, &mut clock, |c| (node, c));
}

/// A logical count: few small ones, so that they meet; the last two; any.
pub fn count(rng: &mut Rng) -> u16 {
    match rng.below(6) {
        0 | 1 => u16::MAX - rng.below(2) as u16,
        2 => rng.word() as u16,
        _ => rng.below(4) as u16,
    }
}

/// A clock's words; some are out of their range, sometimes there are too few
/// or too many.
pub fn any_clock(rng: &mut Rng) -> Vec<u64> {
    let mut clock = vec![
        any_time(rng),
        count(rng).into(),
        rng.byte().into(),
        number32(rng).into(),
    ];
    match rng.below(12) {
        0 => {
            let wrong = [(1, 65_536), (2, 256), (3, 1 << 32), (3, u64::MAX)];
            let (at, word) = pick(rng, &wrong);
            clock[at] = word;
        }
        1 => {
            let at = rng.index(4);
            clock[at] = rng.word();
        }
        2 => clock.resize(near(rng, 4), 0),
        _ => (),
    }
    clock
}

fn single(run: &mut Run, rng: &mut Rng) {
    let mut clock = any_clock(rng);
    let now = reading(rng, clock.first().copied().unwrap_or(0));
    step(run, rng, now, &mut clock);
}

/// A reading near the clock's own time, or any.
fn reading(rng: &mut Rng, phys: u64) -> u64 {
    match rng.below(4) {
        0 => any_time(rng),
        1 => phys.saturating_sub(rng.below(3000)),
        _ => phys.saturating_add(rng.below(3)).saturating_sub(1),
    }
}

fn step(run: &mut Run, rng: &mut Rng, now: u64, clock: &mut Vec<u64>) {
    if rng.one_in(3) {
        same!(run, clock_send, clock, |c| (now, c));
        return;
    }
    let own = clock.first().copied().unwrap_or(0);
    let phys = match rng.below(6) {
        0 => now.saturating_add(2000 + rng.below(3)).saturating_sub(1),
        1 => now.saturating_add(rng.below(9000)),
        2 => any_time(rng),
        3 => reading(rng, own),
        _ => own,
    };
    let (logical, before) = (count(rng), clock.clone());
    let result = same!(run, clock_receive, clock, |c| (phys, logical, now, c));
    if phys == own && matches!(result >> 16, 0 | 8) {
        run.count(
            "receive at an equal time",
            equal_time(&before, logical, now),
        );
    }
}

/// What `equal_time` says.
pub const EQUAL_TIMES: [u32; 17] = [0, 1, 2, 3, 4, 5, 10, 11, 12, 13, 14, 15, 20, 21, 22, 23, 24];

/// How a count that came with the clock's own time compares with the clock's: 0
/// below, 1 equal, 2 above. 3 more where the time is far ahead. 10 more where
/// the count that has to rise is 65,534, and 20 more where it is 65,535.
fn equal_time(clock: &[u64], logical: u16, now: u64) -> u32 {
    let (own, logical, is_far) = (clock[1], u64::from(logical), clock[0] > now + 2000);
    let order = match logical.cmp(&own) {
        Ordering::Less => 0,
        Ordering::Equal => 1,
        Ordering::Greater => 2,
    };
    let rising = if is_far { own } else { own.max(logical) };
    let near_the_end = match rising {
        65_534 => 10,
        65_535 => 20,
        _ => 0,
    };
    order + 3 * u32::from(is_far) + near_the_end
}

fn history(run: &mut Run, rng: &mut Rng) {
    let mut clock = vec![0; 4];
    let node = rng.byte();
    same!(run, clock_fresh, &mut clock, |c| (node, c));
    if rng.one_in(3) {
        // Close to every limit.
        clock = vec![TIME_END - 3000, 65_530, node.into(), (1 << 32) - 3];
    }
    let mut now = clock[0];
    for _ in 0..30 {
        now = match rng.below(5) {
            0 => now.saturating_sub(rng.below(5000)),
            1 => now + rng.below(3000),
            _ => now + rng.below(2),
        };
        step(run, rng, now, &mut clock);
    }
}
