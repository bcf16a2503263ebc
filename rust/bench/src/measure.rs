//! Timing. Other work on the machine comes and goes, so the subjects take
//! many short turns, few of which meet an interruption, and the median counts.

use reference::checksum::{choose, Way};
use std::hint::black_box;
use std::time::{Duration, Instant};
use support::Rng;

pub const ROUNDS: usize = 201;
/// How long one turn lasts, about, unless a single call takes longer.
const TURN: Duration = Duration::from_micros(100);

/// Makes so many calls; the time they took together.
pub type Subject<'a> = Box<dyn FnMut(u32) -> Duration + 'a>;

/// A call that changes nothing: the turn is timed as a whole.
pub fn steady<'a, R>(mut call: impl FnMut() -> R + 'a) -> Subject<'a> {
    Box::new(move |calls| {
        let start = Instant::now();
        for _ in 0..calls {
            black_box(call());
        }
        start.elapsed()
    })
}

/// A call that changes a store: each is timed alone, on a copy that is made
/// outside the timed part.
pub fn on_copies<'a, R>(image: &'a [u8], mut call: impl FnMut(&mut [u8]) -> R + 'a) -> Subject<'a> {
    let mut copy = image.to_vec();
    Box::new(move |calls| {
        let mut total = Duration::ZERO;
        for _ in 0..calls {
            copy.copy_from_slice(image);
            let start = Instant::now();
            black_box(call(black_box(&mut copy)));
            total += start.elapsed();
        }
        total
    })
}

/// The subject with one of the reference's ways to a checksum.
pub fn by(way: Way, mut subject: Subject<'_>) -> Subject<'_> {
    Box::new(move |calls| {
        choose(way);
        let time = subject(calls);
        choose(Way::Table);
        time
    })
}

/// Each subject's median time of a call, in nanoseconds.
pub fn medians(subjects: &mut [Subject<'_>]) -> Vec<f64> {
    let calls: Vec<u32> = subjects.iter_mut().map(calls_in_a_turn).collect();
    let mut times = vec![Vec::new(); subjects.len()];
    let mut rng = Rng::new(1);
    for _ in 0..ROUNDS {
        for i in order(&mut rng, subjects.len()) {
            let time = subjects[i](calls[i]).as_secs_f64() * 1e9;
            times[i].push(time / f64::from(calls[i]));
        }
    }
    times.into_iter().map(median).collect()
}

/// A new order for each round, or an interruption that comes at regular times
/// could always meet the same subject.
fn order(rng: &mut Rng, count: usize) -> Vec<usize> {
    let mut order: Vec<usize> = (0..count).collect();
    for i in (1..count).rev() {
        order.swap(i, rng.index(i + 1));
    }
    order
}

fn calls_in_a_turn(subject: &mut Subject<'_>) -> u32 {
    // The least of a few single calls: the first one is slow.
    let least = (0..5).map(|_| subject(1)).min().unwrap_or(TURN);
    let calls = TURN.as_nanos() / least.as_nanos().max(1);
    calls.clamp(1, 100_000) as u32
}

pub fn median(mut times: Vec<f64>) -> f64 {
    times.sort_by(f64::total_cmp);
    times[times.len() / 2]
}

/// What timing an empty call on a copy gives.
pub fn timer_cost() -> f64 {
    medians(&mut [on_copies(&[0; 16], |_| ())])[0]
}
