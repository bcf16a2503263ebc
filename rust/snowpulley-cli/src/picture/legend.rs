//! What stands beside the ring: the modules, the keys and the signs.

use super::svg::{Point, Svg};
use super::walks::{key_box, letter, BOX};
use super::{badge, ring, BADGE};
use crate::cluster::{owners_shown, Cluster, Walk};
use crate::text::bytes::shown;

const LEFT: f64 = 870.0;
const TOP: f64 = 40.0;
/// How much of a key fits a line.
const KEY_LIMIT: usize = 16;
/// Where text begins beside a sign.
const TEXT: f64 = LEFT + 50.0;

/// Draws the legend; the height that it needs.
pub fn draw(svg: &mut Svg, cluster: &Cluster, walks: &[Walk]) -> f64 {
    let mut legend = Legend { svg, y: TOP };
    legend.title(cluster);
    legend.modules(cluster);
    legend.keys(walks);
    legend.signs(cluster, walks);
    legend.y + TOP
}

/// What is said of a key.
fn key_lines(walk: &Walk) -> [String; 3] {
    let (home, standing) = (owners_shown(&walk.home), owners_shown(&walk.standing));
    [
        shown(&walk.key, KEY_LIMIT),
        format!("position {:#010x}", walk.position),
        format!("HOME {home}; STANDING {standing}"),
    ]
}

struct Legend<'a> {
    svg: &'a mut Svg,
    /// The middle of the next line.
    y: f64,
}

impl Legend<'_> {
    fn at(&self, x: f64) -> Point {
        Point { x, y: self.y }
    }

    fn line(&mut self, x: f64, class: &str, text: &str) {
        let at = self.at(x);
        self.svg.text(at, class, text);
    }

    fn heading(&mut self, text: &str) {
        self.y += 14.0;
        self.line(LEFT, "heading", text);
        self.y += 26.0;
    }

    fn title(&mut self, cluster: &Cluster) {
        self.line(LEFT, "title", "Ring and owners");
        self.y += 26.0;
        let (vnodes, salt) = (cluster.site.vnodes, cluster.site.salt);
        let places = cluster.places().count();
        let about = format!("vnodes of each: {vnodes}; places: {places}; salt: {salt:#010x}");
        self.line(LEFT, "", &about);
        self.y += 22.0;
    }

    fn modules(&mut self, cluster: &Cluster) {
        self.heading("Modules, and their share of the ring");
        for &id in &cluster.site.ids {
            let at = self.at(LEFT + BADGE);
            badge(self.svg, cluster, at, id);
            self.line(TEXT, "", cluster.site.state(id));
            self.line(TEXT + 120.0, "end", &cluster.percent(id));
            self.y += 2.0 * BADGE + 4.0;
        }
    }

    fn keys(&mut self, walks: &[Walk]) {
        if walks.is_empty() {
            return;
        }
        self.heading("Keys");
        for (number, walk) in walks.iter().enumerate() {
            match letter(number) {
                Some(_) => {
                    let at = self.at(LEFT + BADGE);
                    key_box(self.svg, at, number);
                }
                None => self.line(LEFT + BADGE, "middle", "–"),
            }
            for line in key_lines(walk) {
                self.line(TEXT, "", &line);
                self.y += 18.0;
            }
            self.y += 8.0;
        }
    }

    fn signs(&mut self, cluster: &Cluster, walks: &[Walk]) {
        self.heading("Signs");
        self.place_sign(cluster);
        if !cluster.site.down.is_empty() {
            let at = self.at(LEFT + BADGE);
            self.svg.circle(at, BADGE, "badge down");
            self.sign("a module that is DOWN");
        }
        if walks.iter().any(|walk| walk.standing.is_some()) {
            self.walk_sign();
        }
        if letter(walks.len().saturating_sub(1)).is_none() {
            self.line(LEFT + BADGE, "middle", "–");
            self.sign("a key whose walk is not drawn");
        }
        if walks.iter().any(|walk| walk.standing.is_none()) {
            let (from, to) = (self.at(LEFT), self.at(LEFT + 34.0));
            self.svg.line(from, to, "broken");
            self.sign("a walk all the way round: TOO_FEW");
        }
    }

    fn place_sign(&mut self, cluster: &Cluster) {
        let x = LEFT + BADGE;
        let (y, half) = (self.y, 7.0);
        let (top, bottom) = (Point { x, y: y - half }, Point { x, y: y + half });
        self.svg.line(top, bottom, "");
        self.sign(if ring::are_named(cluster) {
            "a place on the ring, with its module's id"
        } else {
            "a place on the ring; too many to name each"
        });
    }

    fn walk_sign(&mut self) {
        let (from, to) = (self.at(LEFT + BOX / 2.0), self.at(LEFT + 34.0));
        self.svg.line(from, to, "");
        self.svg.square(from, BOX, "box");
        self.svg.circle(to, BADGE / 2.0, "badge");
        self.sign("a key's position, and the walk clockwise from it");
        self.sign("to its STANDING owners in turn");
    }

    fn sign(&mut self, text: &str) {
        self.line(TEXT, "", text);
        self.y += 24.0;
    }
}
