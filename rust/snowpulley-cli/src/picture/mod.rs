//! The ring as a drawing: black on white, for a page of A4 across.

mod legend;
mod ring;
mod svg;
mod turn;
mod walks;

use crate::cluster::{Cluster, Walk};
use svg::{Point, Svg};

/// The page, in units of the drawing.
const WIDTH: f64 = 1300.0;
const HEIGHT: f64 = 840.0;

const CENTRE: Point = Point { x: 440.0, y: 420.0 };
/// The radius of the ring itself.
const RADIUS: f64 = 265.0;
/// The radius of a circle with an id in it.
const BADGE: f64 = 10.5;

/// The drawing of a ring, with keys and their walks.
pub fn drawn(cluster: &Cluster, walks: &[Walk]) -> String {
    let mut svg = Svg::default();
    ring::draw(&mut svg, cluster);
    walks::draw(&mut svg, cluster, walks);
    let bottom = legend::draw(&mut svg, cluster, walks);
    svg.finish(WIDTH, HEIGHT.max(bottom))
}

/// A circle with a module's id in it; broken for one that is DOWN.
fn badge(svg: &mut Svg, cluster: &Cluster, centre: Point, node: u8) {
    let class = if cluster.site.is_down(node) {
        "badge down"
    } else {
        "badge"
    };
    svg.circle(centre, BADGE, class);
    let size = if node < 100 { "small" } else { "tiny" };
    svg.text(centre, &format!("{size} middle"), &node.to_string());
}
