//! The hybrid clock.

use reference::clock::Clock;
use reference::Refusal;
use support::Rng;

const LAST: u64 = (1 << 48) - 1;

fn clock(phys: u64, logical: u16) -> Clock {
    Clock {
        phys,
        logical,
        node: 7,
        skew: 3,
    }
}

fn skewed(phys: u64, logical: u16) -> Clock {
    Clock {
        skew: 4,
        ..clock(phys, logical)
    }
}

#[test]
fn a_fresh_clock_is_at_zero() {
    let fresh = Clock::fresh(9);
    assert_eq!((fresh.phys, fresh.logical), (0, 0));
    assert_eq!((fresh.node, fresh.skew), (9, 0));
    assert_eq!(fresh.send(0).unwrap().logical, 1);
}

#[test]
fn send_points() {
    assert_eq!(clock(1000, 5).send(1000), Ok(clock(1000, 6)));
    assert_eq!(clock(1000, 5).send(1001), Ok(clock(1001, 0)));
    assert_eq!(clock(1000, 5).send(400), Ok(clock(1000, 6)));
    assert_eq!(clock(1000, 65_534).send(1000), Ok(clock(1000, 65_535)));
    assert_eq!(clock(1000, 65_535).send(1000), Err(Refusal::ClockSpent));
    assert_eq!(clock(1000, 65_535).send(0), Err(Refusal::ClockSpent));
    assert_eq!(clock(1000, 65_535).send(1001), Ok(clock(1001, 0)));
}

#[test]
fn receive_points() {
    let start = clock(1000, 5);
    assert_eq!(start.receive(3000, 2, 1000), Ok(clock(3000, 3)));
    assert_eq!(start.receive(3001, 2, 1000), Ok(skewed(1000, 6)));
    assert_eq!(start.receive(1001, 9, 1000), Ok(clock(1001, 10)));
    assert_eq!(start.receive(1000, 9, 1000), Ok(clock(1000, 10)));
    assert_eq!(start.receive(999, 9, 1000), Ok(clock(1000, 6)));
    assert_eq!(start.receive(1001, 0, 5000), Ok(clock(1001, 1)));
    assert_eq!(start.receive(999, 0, 5000), Ok(clock(1000, 6)));
}

#[test]
fn an_equal_time_takes_the_greater_count() {
    let start = clock(1000, 5);
    for (received, count) in [(0, 6), (4, 6), (5, 6), (6, 7), (65_534, 65_535)] {
        assert_eq!(
            start.receive(1000, received, 1000),
            Ok(clock(1000, count)),
            "{received}"
        );
    }
    // The reading only says whether it is far ahead.
    assert_eq!(start.receive(1000, 9, 0), Ok(clock(1000, 10)));
    assert_eq!(start.receive(1000, 9, 5000), Ok(clock(1000, 10)));
    assert_eq!(clock(0, 0).receive(0, 3, 0), Ok(clock(0, 4)));
    assert_eq!(clock(LAST, 1).receive(LAST, 3, LAST), Ok(clock(LAST, 4)));
}

/// After the readings have gone back, the clock's own time may be far ahead.
#[test]
fn an_equal_time_that_is_far_ahead_is_far_ahead() {
    let start = clock(5000, 5);
    assert_eq!(start.receive(5000, 9, 3000), Ok(clock(5000, 10)));
    assert_eq!(start.receive(5000, 9, 2999), Ok(skewed(5000, 6)));
    assert_eq!(start.receive(5000, 65_535, 2999), Ok(skewed(5000, 6)));
    let spent = clock(5000, 65_535);
    assert_eq!(spent.receive(5000, 9, 2999), Err(Refusal::ClockSpent));
}

#[test]
fn far_ahead_takes_the_later_of_clock_and_now() {
    assert_eq!(clock(1000, 5).receive(9000, 2, 2000), Ok(skewed(2000, 6)));
    assert_eq!(clock(9500, 5).receive(9000, 2, 2000), Ok(skewed(9500, 6)));
    assert_eq!(clock(2000, 5).receive(9000, 2, 2000), Ok(skewed(2000, 6)));
}

#[test]
fn a_spent_count_refuses_every_receive_that_raises_it() {
    let spent = clock(1000, 65_535);
    assert_eq!(spent.receive(9000, 0, 1000), Err(Refusal::ClockSpent));
    assert_eq!(spent.receive(1000, 0, 1000), Err(Refusal::ClockSpent));
    assert_eq!(spent.receive(999, 0, 1000), Err(Refusal::ClockSpent));
    assert_eq!(spent.receive(1001, 0, 1000), Ok(clock(1001, 1)));
    let start = clock(1000, 5);
    assert_eq!(start.receive(1001, 65_535, 1000), Err(Refusal::ClockSpent));
    assert_eq!(start.receive(1001, 65_534, 1000), Ok(clock(1001, 65_535)));
    assert_eq!(start.receive(1000, 65_535, 1000), Err(Refusal::ClockSpent));
    assert_eq!(start.receive(1000, 65_534, 1000), Ok(clock(1000, 65_535)));
    assert_eq!(spent.receive(1000, 65_535, 1000), Err(Refusal::ClockSpent));
    let last = clock(1000, 65_534);
    assert_eq!(last.receive(1000, 0, 1000), Ok(clock(1000, 65_535)));
    assert_eq!(start.receive(999, 65_535, 1000), Ok(clock(1000, 6)));
    assert_eq!(start.receive(9000, 65_535, 1000), Ok(skewed(1000, 6)));
}

#[test]
fn the_skew_count_stops_at_its_greatest() {
    let mut near = clock(1000, 5);
    near.skew = u32::MAX - 1;
    let full = near.receive(9000, 0, 1000).unwrap();
    assert_eq!(full.skew, u32::MAX);
    assert_eq!(full.receive(9000, 0, 1000).unwrap().skew, u32::MAX);
}

#[test]
fn times_out_of_range_come_before_a_spent_count() {
    let bad = Err(Refusal::BadTime);
    for time in [LAST + 1, u64::MAX] {
        assert_eq!(clock(1000, 65_535).send(time), bad);
        assert_eq!(clock(time, 65_535).send(0), bad);
        assert_eq!(clock(1000, 65_535).receive(0, 0, time), bad);
        assert_eq!(clock(1000, 65_535).receive(time, 0, 0), bad);
        assert_eq!(clock(time, 65_535).receive(0, 0, 0), bad);
    }
    assert_eq!(clock(0, 5).send(LAST), Ok(clock(LAST, 0)));
    assert_eq!(clock(LAST, 5).send(LAST), Ok(clock(LAST, 6)));
    assert_eq!(clock(0, 5).receive(LAST, 1, LAST), Ok(clock(LAST, 2)));
    assert_eq!(clock(0, 5).receive(LAST, 1, 0), Ok(skewed(0, 6)));
}

#[test]
fn every_step_raises_the_stamp_above_what_came() {
    let mut rng = Rng::new(2);
    let mut held = Clock::fresh(1);
    for _ in 0..100_000 {
        let now = held.phys.saturating_sub(20) + rng.below(45);
        let next = if rng.one_in(2) {
            held.send(now)
        } else {
            let phys = match rng.below(3) {
                0 => held.phys,
                _ => now + rng.below(2100),
            };
            let logical = rng.below(4) as u16;
            let next = held.receive(phys, logical, now);
            if phys <= now + 2000 {
                let after = next.expect("the count stays small");
                assert!((after.phys, after.logical) > (phys, logical));
            }
            next
        };
        let next = next.expect("the count stays small");
        assert!(next.stamp() > held.stamp());
        assert!(next.skew == held.skew || next.skew == held.skew + 1);
        assert_eq!(next.node, held.node);
        held = next;
    }
    assert!(held.skew > 0);
}

/// A time near the clock's or the reading, or about the end of the window, with
/// a small count or one at its end.
fn arriving(rng: &mut Rng, held: Clock, now: u64) -> (u64, u16) {
    let phys = match rng.below(4) {
        0 => held.phys,
        1 => now + 1999 + rng.below(3),
        2 => now + rng.below(6000),
        _ => now.saturating_sub(rng.below(50)),
    };
    let logical = match rng.below(20) {
        0 => u16::MAX - rng.below(2) as u16,
        _ => rng.below(5) as u16,
    };
    (phys, logical)
}

/// Over lists of sends and receives from a new clock, with readings that go
/// back and calls that are refused.
#[test]
fn every_send_passes_what_was_given_or_came_within_the_window() {
    let mut rng = Rng::new(5);
    let (mut sends, mut refused, mut above) = (0, 0, 0);
    for _ in 0..5000 {
        let (mut held, mut now) = (Clock::fresh(1), rng.below(5000));
        // The greatest that was given or came within the window, and the
        // greatest that was far ahead when it came.
        let (mut met, mut far) = (None, None);
        for _ in 0..50 {
            now = now.saturating_sub(rng.below(5) * 450) + rng.below(1800);
            let is_send = rng.one_in(3);
            let (phys, logical) = arriving(&mut rng, held, now);
            let next = if is_send {
                held.send(now)
            } else {
                held.receive(phys, logical, now)
            };
            let Ok(next) = next else {
                refused += 1;
                continue;
            };
            held = next;
            if is_send {
                let given = Some((next.phys, next.logical));
                assert!(met < given, "{met:?} and {given:?}");
                (sends, above) = (sends + 1, above + u32::from(far > given));
                met = given;
            } else if phys <= now + 2000 {
                met = met.max(Some((phys, logical)));
            } else {
                far = far.max(Some((phys, logical)));
            }
        }
    }
    assert!(sends > 50_000 && refused > 1000, "{sends}, {refused}");
    // Only what was far ahead may stay above.
    assert!(above > 1000, "{above}");
}
