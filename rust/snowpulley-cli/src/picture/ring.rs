//! The circle with its places.

use super::svg::Svg;
use super::turn::{self, across, point, spread};
use super::{badge, BADGE, CENTRE, RADIUS};
use crate::cluster::Cluster;

const TICK: f64 = 7.0;
/// How far from the centre the modules' ids stand.
const IDS: f64 = RADIUS + 46.0;
/// How far from the centre the quarters are named.
const QUARTERS: f64 = RADIUS + 80.0;
/// More places than this are ticks alone.
const NAMED_MAX: usize = 80;

pub fn are_named(cluster: &Cluster) -> bool {
    cluster.places().count() <= NAMED_MAX
}

pub fn draw(svg: &mut Svg, cluster: &Cluster) {
    svg.circle(CENTRE, RADIUS, "strong");
    let turns: Vec<f64> = cluster
        .places()
        .map(|place| turn::of(place.token))
        .collect();
    for &turn in &turns {
        let (inner, outer) = (point(turn, RADIUS - TICK), point(turn, RADIUS + TICK));
        svg.line(inner, outer, "");
    }
    if are_named(cluster) {
        draw_ids(svg, cluster, &turns);
    }
    draw_quarters(svg);
}

/// The ids beside the places, moved apart where they are close.
fn draw_ids(svg: &mut Svg, cluster: &Cluster, turns: &[f64]) {
    let apart = spread(turns, across(2.0 * BADGE + 1.5, IDS));
    for ((place, &turn), &moved) in cluster.places().zip(turns).zip(&apart) {
        let at = point(moved, IDS);
        svg.line(point(turn, RADIUS + TICK), at, "fine");
        badge(svg, cluster, at, place.node);
    }
}

fn draw_quarters(svg: &mut Svg) {
    let quarters = [0, 0x4000_0000, 0x8000_0000, 0xC000_0000];
    for (position, class) in quarters.into_iter().zip(["middle", "", "middle", "end"]) {
        let at = point(turn::of(position), QUARTERS);
        let side = format!("small {class}");
        svg.text(at, &side, &format!("{position:#010x}"));
    }
}
