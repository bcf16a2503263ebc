//! `snowpulley ring`, in words and as a drawing.

mod common;

use common::{run, temporary, Run};

fn asked(options: &str, keys: &[&str]) -> Run {
    let options = options.split_whitespace();
    let args: Vec<&str> = ["ring"].into_iter().chain(options).collect();
    run(&[&args, keys].concat())
}

/// The drawing of a ring, with the tool's exit status.
fn drawn(name: &str, options: &str, keys: &[&str]) -> (i32, String) {
    let path = temporary(name);
    let options = format!("{options} --svg {}", path.display());
    let status = asked(&options, keys).status;
    (status, std::fs::read_to_string(path).unwrap())
}

#[test]
fn the_ring_in_words() {
    asked("--ids 1,2,3,4 --vnodes 2 --places", &["zero"]).says(0, "ring.txt");
    asked("--ids 7", &[]).says(0, "ring-one.txt");
    let too_few = asked("--ids 1,2,3,4 --down 1,4", &["zero"]);
    assert_eq!(too_few.status, 1);
    assert!(too_few.out.ends_with("TOO_FEW\n"));
}

/// Every element is closed, and there is nothing but black and white.
fn is_a_drawing(svg: &str) {
    assert!(svg.starts_with("<?xml") && svg.ends_with("</svg>\n"));
    let elements = svg.lines().filter(|line| line.starts_with('<')).skip(2);
    for line in elements.filter(|line| !line.starts_with("<style")) {
        let text = line.starts_with("<text") && line.ends_with("</text>");
        let closed = line.ends_with("/>") || text || line.starts_with("</");
        assert!(closed, "{line}");
    }
    for part in svg.split("fill: ").chain(svg.split("stroke: ")).skip(1) {
        let colour: String = part.chars().take_while(char::is_ascii_alphabetic).collect();
        let known = ["black", "white", "none", "xml"];
        assert!(
            known.contains(&colour.as_str()) || colour.is_empty(),
            "{colour}"
        );
    }
}

#[test]
fn a_drawing_has_the_places_the_keys_and_their_owners() {
    let options = "--ids 1,2,3,4 --vnodes 4 --down 3";
    let (status, svg) = drawn("ring.svg", options, &["comp/scale-3", "a<b&c"]);
    assert_eq!(status, 0);
    is_a_drawing(&svg);
    // A badge for each place, owner and module, and two in the signs.
    let badges = svg.matches("class=\"badge").count();
    assert_eq!(badges, 16 + 2 * 3 + 4 + 2);
    assert_eq!(svg.matches("badge down").count(), 4 + 1 + 1);
    assert!(svg.contains(">\"comp/scale-3\"<") && svg.contains(">\"a&lt;b&amp;c\"<"));
    let listed = asked(options, &["comp/scale-3"]).out;
    let standing = listed.rsplit("  ").next().unwrap().trim();
    assert!(svg.contains(&format!("STANDING {standing}<")), "{standing}");
    assert!(svg.contains(">A<") && svg.contains(">B<") && !svg.contains(">C<"));
}

#[test]
fn a_drawing_says_too_few() {
    let (status, svg) = drawn("few.svg", "--ids 1,2,3,4 --down 1,3", &["k"]);
    assert_eq!(status, 1);
    is_a_drawing(&svg);
    assert!(svg.contains("STANDING TOO_FEW<"));
    assert!(svg.contains("<circle class=\"broken\""));
}

#[test]
fn many_places_and_keys_are_drawn_without_names() {
    let keys = ["a", "b", "c", "d", "e", "f", "g", "h", "i"];
    let ids = "--ids 1,2,3,4,5,6,7,8,9,255 --vnodes 64";
    let (status, svg) = drawn("many.svg", ids, &keys);
    assert_eq!(status, 0);
    is_a_drawing(&svg);
    assert!(svg.contains("too many to name each") && svg.contains("is not drawn"));
    assert_eq!(svg.matches("class=\"badge\"").count(), 10 + 7 * 3 + 1);
    assert!(svg.contains(">\"i\"<"));
}

/// The number in an attribute of an element.
fn attribute(line: &str, name: &str) -> f64 {
    let (_, rest) = line.split_once(&format!(" {name}=\"")).unwrap();
    rest.split('"').next().unwrap().parse().unwrap()
}

/// No two ids lie over each other, however close their places are.
#[test]
fn ids_are_apart() {
    for salt in 0..8 {
        let options = format!("--ids 1,2,3,4,5,6,7,8,9,10 --vnodes 8 --salt {salt}");
        let (_, svg) = drawn(&format!("apart-{salt}.svg"), &options, &["k"]);
        let badges = svg
            .lines()
            .filter(|l| l.starts_with("<circle class=\"badge"));
        let centres = badges.map(|l| (attribute(l, "cx"), attribute(l, "cy")));
        let centres: Vec<(f64, f64)> = centres.collect();
        for (index, one) in centres.iter().enumerate() {
            for two in &centres[index + 1..] {
                let apart = (one.0 - two.0).hypot(one.1 - two.1);
                assert!(apart > 20.0, "salt {salt}: {one:?} {two:?}");
            }
        }
    }
}
