//! The three calls that a user asks about first: a short table and a chart,
//! both from the long table of single calls.

use crate::table::{row, Row};
use std::fmt::Write;

/// The calls' rows in the long table, and what they are called here.
const CALLS: [(&str, &str); 3] = [
    ("GET, 100 used, 33 bytes", "a GET"),
    ("PUT over, 100 used, 33 bytes", "a PUT"),
    (
        "merge 100 into 100, all newer, 33 bytes",
        "a merge that replaces all 100 entries",
    ),
];

/// Who makes the call, with a shade that also prints in black and white.
const SUBJECTS: [(&str, &str); 4] = [
    ("proved", "#1a1a1a"),
    ("second program, plain table", "#8a8a8a"),
    ("second program, wide tables", "#b0b0b0"),
    ("second program, CPU instruction", "#d6d6d6"),
];

fn calls(long: &str) -> Result<Vec<(&'static str, Row)>, String> {
    let rows = CALLS.map(|(name, title)| row(long, name).map(|row| (title, row)));
    rows.into_iter().collect()
}

/// The times of a row, in microseconds, in the order of the subjects.
fn times(row: &Row) -> impl Iterator<Item = Option<f64>> {
    let [table, wide, cpu] = row.reference;
    [Some(row.proved), table, wide, cpu]
        .into_iter()
        .map(|time| time.map(|nanoseconds| nanoseconds / 1000.0))
}

fn microseconds(time: Option<f64>) -> String {
    time.map_or("–".to_string(), |time| format!("{time:.0}"))
}

/// The three rows, as Markdown.
pub fn summary(long: &str) -> Result<String, String> {
    let mut text = "| on a full store of 100 slots |".to_string();
    for (subject, _) in SUBJECTS {
        let _ = write!(text, " {subject} |");
    }
    let _ = writeln!(text, "\n|---|{}", "---:|".repeat(SUBJECTS.len()));
    for (title, row) in calls(long)? {
        let _ = write!(text, "| {title} |");
        for time in times(&row) {
            let _ = write!(text, " {} µs |", microseconds(time));
        }
        text.push('\n');
    }
    Ok(text)
}

const WIDTH: f64 = 760.0;
const LEFT: f64 = 230.0;
const TOP: f64 = 48.0;
const BAR: f64 = 17.0;
/// From one bar to the next, and what is between two calls.
const STEP: f64 = 21.0;
const GAP: f64 = 38.0;
/// The length of the longest bar; its figure stands to its right.
const LONGEST: f64 = WIDTH - LEFT - 80.0;

const STYLE: &str = "\
text { font-family: 'DejaVu Sans', Helvetica, Arial, sans-serif; font-size: 12px; fill: black }
.title { font-size: 15px; font-weight: bold }
.call { font-weight: bold }
.who { text-anchor: end }
";

/// The chart, as SVG.
pub fn chart(long: &str) -> Result<String, String> {
    let calls = calls(long)?;
    let most = calls.iter().flat_map(|(_, row)| times(row).flatten());
    let scale = LONGEST / most.fold(0.0, f64::max);
    let mut body = text(
        16.0,
        24.0,
        "title",
        "Time of one call on a full store of 100 slots",
    );
    let mut y = TOP;
    for (title, row) in &calls {
        y += STEP;
        body += &text(16.0, y - 12.0, "call", title);
        for ((subject, shade), time) in SUBJECTS.into_iter().zip(times(row)) {
            let length = time.unwrap_or(0.0) * scale;
            let figure = format!("{} µs", microseconds(time));
            let middle = y + BAR / 2.0;
            body += &text(LEFT - 10.0, middle, "who", subject);
            let _ = writeln!(
                body,
                r#"<rect x="{LEFT}" y="{y}" width="{length:.1}" height="{BAR}" fill="{shade}"/>"#
            );
            body += &text(LEFT + length + 8.0, middle, "figure", &figure);
            y += STEP;
        }
        y += GAP - STEP;
    }
    let height = y - GAP + STEP + 8.0;
    Ok(format!(
        "<?xml version=\"1.0\" encoding=\"UTF-8\"?>\n\
         <svg xmlns=\"http://www.w3.org/2000/svg\" width=\"{WIDTH}\" height=\"{height}\" \
         viewBox=\"0 0 {WIDTH} {height}\">\n<style>\n{STYLE}</style>\n\
         <rect width=\"{WIDTH}\" height=\"{height}\" fill=\"white\"/>\n{body}</svg>\n"
    ))
}

/// A line of text whose middle, from top to bottom, is at the height.
fn text(x: f64, y: f64, class: &str, text: &str) -> String {
    format!("<text class=\"{class}\" x=\"{x:.1}\" y=\"{y:.1}\" dy=\"0.35em\">{text}</text>\n")
}
