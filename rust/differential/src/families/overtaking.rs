//! Requests to a fresh store with a fresh clock: a local write passes all that
//! the module has had of its key, or is overtaken by what came from far ahead.

use super::handler::{local, next_time, request};
use super::image::{empty, slots, small_entry};
use super::message::{framed, repl};
use crate::make::{pick, pool_key};
use crate::run::Run;
use reference::stamp::{Stamp, TIME_END};
use reference::store::{entries, Entry};
use support::Rng;

/// How an accepted request came by an entry: in a REPL, with a time that was
/// more than 2000 ms ahead or not; or by a PUT or a DEL.
#[derive(Clone, Copy, PartialEq)]
enum By {
    Far,
    Near,
    Local,
}

/// What the module has had, in order.
type Had = Vec<(Entry, By)>;

pub fn overtaking(run: &mut Run, rng: &mut Rng) {
    let slots = slots(rng);
    let node = rng.below(4);
    let mut state = (empty(slots), vec![0, 0, node, 0], vec![0; 600]);
    let mut had: Had = vec![];
    let mut now = rng.below(10_000);
    for _ in 0..60 {
        now = next_time(rng, now);
        let entry = request_entry(rng, now, state.1[0], &had);
        if rng.one_in(3) {
            let answer = request(run, &mut state, now, &framed(&local(entry.clone())));
            judge(run, answer >> 16, &state.0, &entry.key, &mut had);
        } else if request(run, &mut state, now, &framed(&repl(entry.clone()))) >> 16 == 0 {
            let is_far = entry.stamp.phys > now + 2000;
            had.push((entry, if is_far { By::Far } else { By::Near }));
        }
    }
}

/// An entry that the module has had, or one with a time about the clock's, the
/// reading or the end of the window.
fn request_entry(rng: &mut Rng, now: u64, clock: u64, had: &Had) -> Entry {
    if !had.is_empty() && rng.one_in(3) {
        return had[rng.index(had.len())].0.clone();
    }
    let key = pool_key(rng);
    let phys = pick(rng, &[clock, now, now + 2000, now + 2001, now + 3500]);
    let stamp = Stamp {
        phys: phys.min(TIME_END),
        logical: rng.below(5) as u16,
        node: rng.below(4) as u8,
    };
    Entry {
        stamp,
        ..small_entry(rng, key)
    }
}

/// What a local write's refusal, or the entry that it leaves, says of what the
/// module has had.
fn judge(run: &mut Run, refusal: u32, store: &[u8], key: &[u8], had: &mut Had) {
    let all = entries(store).expect("a sound store");
    let held = all.into_iter().find(|e| e.key == key);
    run.holds(
        "the key is held",
        held.is_some() || ![0, 7].contains(&refusal),
    );
    let Some(held) = held else {
        return;
    };
    let of_key: Vec<&(Entry, By)> = had.iter().filter(|(e, _)| e.key == key).collect();
    if refusal == 7 {
        let ways = of_key.iter().filter(|(e, _)| *e == held).map(|(_, by)| *by);
        let ways: Vec<By> = ways.collect();
        run.holds("the held entry came in a REPL", !ways.is_empty());
        let all_far = ways.iter().all(|by| *by == By::Far);
        run.holds("each time from far ahead", all_far);
        run.count("overtaken", ways.len().min(2) as u32);
    } else if refusal == 0 {
        let is_above = of_key.iter().all(|(e, _)| e.stamp < held.stamp);
        run.holds("an accepted write passes what was had", is_above);
        if let Some((last, by)) = of_key.last() {
            let was_far = of_key.iter().any(|(e, by)| e == last && *by == By::Far);
            run.count("passed", *by as u32 + 3 * u32::from(was_far));
        }
        had.push((held, By::Local));
    }
}

/// What is counted of refusals with 7: the held entry came once (1), or more
/// than once (2).
pub const OVERTAKEN: [u32; 2] = [1, 2];

/// And of accepted writes, by the entry of the key that was had last: it came
/// from far ahead (3); not from far ahead then, but before (4); never from far
/// ahead (1); or a local write made it (2).
pub const PASSED: [u32; 4] = [1, 2, 3, 4];
