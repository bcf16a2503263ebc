//! Writing SVG elements.

use crate::text::markup::escaped;
use std::fmt::Write;

#[derive(Clone, Copy, Debug, PartialEq)]
pub struct Point {
    pub x: f64,
    pub y: f64,
}

/// The elements so far.
#[derive(Default)]
pub struct Svg {
    body: String,
}

const STYLE: &str = "\
line, path, circle, rect { stroke: black; stroke-width: 1.2; fill: none }
text { font-family: 'DejaVu Sans', Helvetica, Arial, sans-serif; font-size: 13px; fill: black }
.strong { stroke-width: 2.4 }
.fine { stroke-width: 0.7 }
.dotted { stroke-width: 0.9; stroke-dasharray: 1.5 3 }
.broken { stroke-dasharray: 7 4 }
.badge, .box { fill: white }
.down { stroke-dasharray: 3 2.5 }
.filled { fill: black; stroke: none }
.title { font-size: 18px; font-weight: bold }
.heading { font-weight: bold }
.small { font-size: 11px }
.tiny { font-size: 9px }
.middle { text-anchor: middle }
.end { text-anchor: end }
";

impl Svg {
    pub fn line(&mut self, from: Point, to: Point, class: &str) {
        let (Point { x: x1, y: y1 }, Point { x: x2, y: y2 }) = (from, to);
        self.element(&format!(
            r#"<line class="{class}" x1="{x1:.1}" y1="{y1:.1}" x2="{x2:.1}" y2="{y2:.1}"/>"#
        ));
    }

    pub fn circle(&mut self, centre: Point, radius: f64, class: &str) {
        let Point { x, y } = centre;
        self.element(&format!(
            r#"<circle class="{class}" cx="{x:.1}" cy="{y:.1}" r="{radius:.1}"/>"#
        ));
    }

    /// A square around its centre.
    pub fn square(&mut self, centre: Point, side: f64, class: &str) {
        let (x, y) = (centre.x - side / 2.0, centre.y - side / 2.0);
        self.element(&format!(
            r#"<rect class="{class}" x="{x:.1}" y="{y:.1}" width="{side}" height="{side}"/>"#
        ));
    }

    /// A part of a circle, clockwise; `long` if it is more than half of it.
    pub fn arc(&mut self, from: Point, to: Point, radius: f64, long: bool, class: &str) {
        let long = u8::from(long);
        let (Point { x: x1, y: y1 }, Point { x: x2, y: y2 }) = (from, to);
        self.element(&format!(
            r#"<path class="{class}" d="M {x1:.1} {y1:.1} A {radius:.1} {radius:.1} 0 {long} 1 {x2:.1} {y2:.1}"/>"#
        ));
    }

    pub fn triangle(&mut self, corners: [Point; 3], class: &str) {
        let [a, b, c] = corners.map(|Point { x, y }| format!("{x:.1} {y:.1}"));
        self.element(&format!(
            r#"<path class="{class}" d="M {a} L {b} L {c} Z"/>"#
        ));
    }

    /// A line of text whose middle, from top to bottom, is at the point.
    pub fn text(&mut self, at: Point, class: &str, text: &str) {
        let (Point { x, y }, text) = (at, escaped(text));
        self.element(&format!(
            r#"<text class="{class}" x="{x:.1}" y="{y:.1}" dy="0.35em">{text}</text>"#
        ));
    }

    fn element(&mut self, element: &str) {
        let _ = writeln!(self.body, "{element}");
    }

    /// The whole drawing, as wide as a page of A4 across with its margins.
    pub fn finish(self, width: f64, height: f64) -> String {
        let page = 277.0;
        let tall = page * height / width;
        format!(
            "<?xml version=\"1.0\" encoding=\"UTF-8\"?>\n\
             <svg xmlns=\"http://www.w3.org/2000/svg\" width=\"{page}mm\" height=\"{tall:.1}mm\" \
             viewBox=\"0 0 {width:.0} {height:.0}\">\n\
             <style>\n{STYLE}</style>\n\
             <rect x=\"0\" y=\"0\" width=\"{width:.0}\" height=\"{height:.0}\" \
             style=\"fill: white; stroke: none\"/>\n{}</svg>\n",
            self.body
        )
    }
}

#[cfg(test)]
mod tests {
    use super::*;

    #[test]
    fn text_is_escaped() {
        let mut svg = Svg::default();
        svg.text(Point { x: 1.0, y: 2.0 }, "small", "<a & b>");
        let drawing = svg.finish(10.0, 5.0);
        assert!(drawing.contains(">&lt;a &amp; b&gt;</text>"));
        assert!(drawing.contains(r#"height="138.5mm""#));
    }
}
