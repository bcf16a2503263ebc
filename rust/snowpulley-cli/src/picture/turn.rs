//! Directions on the ring, as parts of a turn: 0 is up, a quarter is right.

use super::svg::Point;
use super::CENTRE;
use std::f64::consts::TAU;

pub use crate::cluster::part as of;

/// The point in a direction at a distance from the centre.
pub fn point(turn: f64, distance: f64) -> Point {
    let (sin, cos) = (turn * TAU).sin_cos();
    Point {
        x: CENTRE.x + distance * sin,
        y: CENTRE.y - distance * cos,
    }
}

/// What a length is, as a part of the turn, at a distance from the centre.
pub fn across(length: f64, distance: f64) -> f64 {
    length / (distance * TAU)
}

/// Moves directions apart until each is at least `gap` from the next one, the
/// last from the first too, or as near to that as they go. They must ascend
/// and lie within one turn.
pub fn spread(turns: &[f64], gap: f64) -> Vec<f64> {
    const ROUNDS: usize = 2000;
    let mut moved = turns.to_vec();
    let gap = gap.min(1.0 / moved.len().max(1) as f64);
    for _ in 0..ROUNDS {
        if !push_apart(&mut moved, gap) {
            break;
        }
    }
    moved
}

/// One round; whether anything was too near.
fn push_apart(turns: &mut [f64], gap: f64) -> bool {
    let mut pushed = false;
    for index in 0..turns.len() {
        let next = (index + 1) % turns.len();
        let whole = if next == 0 { 1.0 } else { 0.0 };
        let missing = gap - (turns[next] + whole - turns[index]);
        if next != index && missing > gap / 1000.0 {
            turns[index] -= missing / 2.0;
            turns[next] += missing / 2.0;
            pushed = true;
        }
    }
    pushed
}

#[cfg(test)]
mod tests {
    use super::*;

    #[test]
    fn directions_are_spread_in_their_order() {
        let turns = [0.1, 0.1, 0.11, 0.5, 0.98, 0.99];
        let moved = spread(&turns, 0.05);
        for pair in moved.windows(2) {
            assert!(pair[1] - pair[0] > 0.0499, "{moved:?}");
        }
        assert!(moved[0] + 1.0 - moved[5] > 0.0499, "{moved:?}");
        assert!((moved[3] - 0.5).abs() < 1e-12);
    }

    #[test]
    fn too_many_are_spread_evenly() {
        let moved = spread(&[0.0, 0.1, 0.2], 0.9);
        assert!((moved[1] - moved[0] - 1.0 / 3.0).abs() < 1e-3, "{moved:?}");
        assert_eq!(spread(&[], 0.1), Vec::<f64>::new());
        assert_eq!(spread(&[0.4], 0.1), vec![0.4]);
    }

    #[test]
    fn up_is_first_and_the_way_is_clockwise() {
        let up = point(0.0, 10.0);
        let right = point(of(1 << 30), 10.0);
        assert!((up.x - CENTRE.x).abs() < 1e-9 && (up.y + 10.0 - CENTRE.y).abs() < 1e-9);
        assert!((right.x - 10.0 - CENTRE.x).abs() < 1e-9);
    }
}
