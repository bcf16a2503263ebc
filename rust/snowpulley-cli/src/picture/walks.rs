//! The keys inside the circle, each with its walk to its STANDING owners.

use super::svg::{Point, Svg};
use super::turn::{self, across, point, spread};
use super::{badge, BADGE, CENTRE, RADIUS};
use crate::cluster::{Cluster, Walk};

/// How far from the centre the first walk is, and each next one further in.
const FIRST: f64 = RADIUS - 36.0;
const STEP: f64 = 27.0;
/// More walks than this are listed and not drawn.
const DRAWN_MAX: usize = 7;
pub const BOX: f64 = 20.0;

/// The letter of the walk with this number, if it is drawn.
pub fn letter(number: usize) -> Option<String> {
    let letters = ["A", "B", "C", "D", "E", "F", "G"];
    letters.get(number).map(|letter| (*letter).to_string())
}

pub fn draw(svg: &mut Svg, cluster: &Cluster, walks: &[Walk]) {
    for (number, walk) in walks.iter().take(DRAWN_MAX).enumerate() {
        let distance = FIRST - STEP * number as f64;
        if walk.standing.is_none() {
            svg.circle(CENTRE, distance, "broken");
        }
        // With too few owners the walk has nothing to stop at.
        let owners = walk.standing.as_deref().unwrap_or_default();
        let stops = stops(cluster, walk, owners, distance);
        way(svg, &stops, distance);
        for (&owner, &turn) in owners.iter().zip(&stops[1..]) {
            badge(svg, cluster, point(turn, distance), owner);
        }
        let key = point(stops[0], distance);
        svg.line(key, point(turn::of(walk.position), RADIUS), "dotted");
        key_box(svg, key, number);
    }
}

/// Where the key and then its owners are drawn: in the direction in which the
/// walk meets them, moved apart where they are close.
fn stops(cluster: &Cluster, walk: &Walk, owners: &[u8], distance: f64) -> Vec<f64> {
    let turns = turns(cluster, walk, owners);
    spread(&turns, across(2.0 * BADGE + 3.0, distance))
}

/// The key's direction, then those in which its owners are met, ascending.
fn turns(cluster: &Cluster, walk: &Walk, owners: &[u8]) -> Vec<f64> {
    let start = turn::of(walk.position);
    let met = owners.iter().map(|&owner| {
        let place = cluster.first_place(walk.position, owner);
        let token = place.map_or(walk.position, |place| place.token);
        start + turn::of(token.wrapping_sub(walk.position))
    });
    std::iter::once(start).chain(met).collect()
}

/// An arc from the first stop to the last, with an arrowhead in the middle of
/// its longest part, if there is room for one.
fn way(svg: &mut Svg, stops: &[f64], distance: f64) {
    let parts = stops.windows(2).map(|pair| (pair[0], pair[1]));
    let longest = parts.max_by(|a, b| f64::total_cmp(&(a.1 - a.0), &(b.1 - b.0)));
    let (Some((before, after)), [from, .., to]) = (longest, stops) else {
        return;
    };
    let (start, end) = (point(*from, distance), point(*to, distance));
    svg.arc(start, end, distance, to - from > 0.5, "");
    if after - before < across(2.0 * BADGE + 14.0, distance) {
        return;
    }
    let middle = (before + after) / 2.0 + across(4.5, distance);
    let back = middle - across(9.0, distance);
    let head = [
        point(middle, distance),
        point(back, distance - 4.0),
        point(back, distance + 4.0),
    ];
    svg.triangle(head, "filled");
}

/// A box with the key's letter.
pub fn key_box(svg: &mut Svg, centre: Point, number: usize) {
    svg.square(centre, BOX, "box");
    svg.text(
        centre,
        "heading middle",
        &letter(number).unwrap_or_default(),
    );
}
